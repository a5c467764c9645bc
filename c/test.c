/*
 * Tests of the archive's calls from C. Argument: the file examples/trip, the type Trip of document 01 with four runs.
 *
 * What is expected: the four answers are those of document 01's example. The layout's length (218) and the offsets are those that
 * `judge/run answer` gives for the same inputs, by the rules of document 01 and the unchanged Rust.
 *
 * Prints the number of checks; a check that fails is told with file and line, and the status is 1.
 */
#include "ciztarmo.h"

#include <stdio.h>
#include <stdlib.h>
#include <string.h>

#define LAYOUT_LEN 218
#define RUNS 4
#define SPARE_WORDS 8
#define MOST_RUNS (RUNS * 512)
#define ROOM (MOST_RUNS * CIZTARMO_ANSWER_WORDS)
#define DIRTY_WORD UINT64_C(0xA5C3A5C3A5C3A5C3)
#define DIRTY_BYTE 0x5A

static unsigned long checks, failures;

static void check(int good, const char *what, int line)
{
    checks++;
    if (good)
        return;
    failures++;
    fprintf(stderr, "%s:%d: not so: %s\n", __FILE__, line, what);
}

#define CHECK(c) check((c) != 0, #c, __LINE__)

/* Words, answers and output lie on the heap, where the sanitizer sees an access outside them. */
static uint64_t *words, *answers;
static uint8_t *out, *own_out;
/* A block of one byte more than an input may have. */
static uint8_t *too_long;
static uint64_t answer[CIZTARMO_ANSWER_WORDS];

static uint8_t trip[1024];
static const uint8_t *set, *runs[RUNS];
static size_t set_len, run_lens[RUNS], runs_len;
static uint8_t layout[LAYOUT_LEN];

/* The example's four answers: counts 13 and 1, then 25 with the required count, then 21 at the node that asks for legs.n. */
static const uint64_t run_answers[RUNS][CIZTARMO_ANSWER_WORDS] = {{0, CIZTARMO_NO_PLACE, 0, 13},
                                                                  {0, CIZTARMO_NO_PLACE, 0, 1},
                                                                  {CIZTARMO_BUFFER_TOO_SMALL, 0, 0, 13},
                                                                  {CIZTARMO_MISSING_IR_PARAMETER, 0, 150, 0}};

static const uint8_t name[] = {'T', 'r', 'i', 'p'};

static void dirty(size_t many)
{
    for (size_t i = 0; i < many + SPARE_WORDS; i++)
        words[i] = DIRTY_WORD;
    for (int i = 0; i < CIZTARMO_ANSWER_WORDS; i++)
        answer[i] = DIRTY_WORD;
    memset(out, DIRTY_BYTE, CIZTARMO_MAX_INPUT);
}

/* The words that were lent (zero) and those behind them (as they were). */
static void check_words(int line, size_t many)
{
    int zero = 1, same = 1;
    for (size_t i = 0; i < many; i++)
        zero &= words[i] == 0;
    for (size_t i = many; i < many + SPARE_WORDS; i++)
        same &= words[i] == DIRTY_WORD;
    check(zero, "the words are zero after the call", line);
    check(same, "the words behind those that were lent are untouched", line);
}

static void check_four(int line, const uint64_t *got, const uint64_t *want)
{
    for (int i = 0; i < CIZTARMO_ANSWER_WORDS; i++) {
        checks++;
        if (got[i] == want[i])
            continue;
        failures++;
        fprintf(stderr, "%s:%d: word %d of the answer is %llu, not %llu\n", __FILE__, line, i, (unsigned long long)got[i],
                (unsigned long long)want[i]);
    }
}

static void check_answer(int line, size_t many, uint64_t number, uint64_t place, uint64_t offset, uint64_t value)
{
    const uint64_t want[CIZTARMO_ANSWER_WORDS] = {number, place, offset, value};
    check_words(line, many);
    check_four(line, answer, want);
}

#define ANSWER(many, number, place, offset, value) check_answer(__LINE__, many, number, place, offset, value)
#define REFUSED(many, number, offset) check_answer(__LINE__, many, number, CIZTARMO_NO_PLACE, offset, 0)

/* Whether bytes from a place up to another all have one value. */
static int all(const uint8_t *bytes, size_t from, size_t to, uint8_t value)
{
    while (from < to && bytes[from] == value)
        from++;
    return from == to;
}

static size_t block_len(const uint8_t *b)
{
    return 4 + (b[0] | (size_t)b[1] << 8 | (size_t)b[2] << 16 | (size_t)b[3] << 24);
}

static int read_trip(const char *path)
{
    FILE *f = fopen(path, "rb");
    if (f == NULL) {
        perror(path);
        return 0;
    }
    size_t n = fread(trip, 1, sizeof trip, f), at;
    fclose(f);
    if (n < 4 || (at = set_len = block_len(trip)) > n) {
        fprintf(stderr, "%s: no block at byte 0\n", path);
        return 0;
    }
    set = trip;
    for (int i = 0; i < RUNS; i++) {
        if (n - at < 4 || block_len(trip + at) > n - at) {
            fprintf(stderr, "%s: no block at byte %lu\n", path, (unsigned long)at);
            return 0;
        }
        runs[i] = trip + at;
        run_lens[i] = block_len(runs[i]);
        at += run_lens[i];
    }
    runs_len = at - set_len;
    return 1;
}

/*
 * The calls that build and validate. With enough words the call that is lent none must leave the same: called first, it leaves its
 * answer in `own`.
 */
static uint64_t own[CIZTARMO_ANSWER_WORDS];

static void before_own(size_t many)
{
    dirty(many);
    memcpy(own, answer, sizeof own);
}

static void check_own(size_t many, int line)
{
    if (many >= CIZTARMO_WORDS)
        check_four(line, own, answer);
}

/* Builds into an output of `room` bytes; the bytes behind it must stay. */
static void build(size_t many, const uint8_t *bytes, size_t len, size_t room)
{
    before_own(many);
    ciztarmo_layout_of(bytes, len, out, room, own);
    memcpy(own_out, out, CIZTARMO_MAX_INPUT);
    dirty(many);
    ciztarmo_build_set(words, many, bytes, len, out, room, answer);
    CHECK(all(out, room, CIZTARMO_MAX_INPUT, DIRTY_BYTE));
    check_own(many, __LINE__);
    CHECK(many < CIZTARMO_WORDS || memcmp(own_out, out, CIZTARMO_MAX_INPUT) == 0);
}

static void validate(size_t many, const uint8_t *l, size_t l_len, const uint8_t *n, size_t n_len, const uint8_t *v, size_t v_len,
                     uint64_t len)
{
    before_own(many);
    ciztarmo_length_of(l, l_len, n, n_len, v, v_len, len, own);
    ciztarmo_validate(words, many, l, l_len, n, n_len, v, v_len, len, answer);
    check_own(many, __LINE__);
}

static void validate_run(size_t many, const uint8_t *l, size_t l_len, const uint8_t *run, size_t run_len)
{
    before_own(many);
    ciztarmo_length_of_run(l, l_len, run, run_len, own);
    ciztarmo_validate_run(words, many, l, l_len, run, run_len, answer);
    check_own(many, __LINE__);
}

static void test_build(void)
{
    const size_t rooms[] = {CIZTARMO_MAX_INPUT, LAYOUT_LEN + 1, LAYOUT_LEN};
    build(CIZTARMO_WORDS, set, set_len, CIZTARMO_MAX_INPUT);
    memcpy(layout, out, LAYOUT_LEN);
    for (size_t i = 0; i < sizeof rooms / sizeof rooms[0]; i++) {
        build(CIZTARMO_WORDS, set, set_len, rooms[i]);
        ANSWER(CIZTARMO_WORDS, 0, CIZTARMO_NO_PLACE, 0, LAYOUT_LEN);
        CHECK(memcmp(out, layout, LAYOUT_LEN) == 0);
        CHECK(all(out, LAYOUT_LEN, rooms[i], DIRTY_BYTE));
    }
    build(2 * CIZTARMO_WORDS, set, set_len, CIZTARMO_MAX_INPUT);
    ANSWER(2 * CIZTARMO_WORDS, 0, CIZTARMO_NO_PLACE, 0, LAYOUT_LEN);
    CHECK(block_len(layout) == LAYOUT_LEN && layout[4] == 160);
}

static void test_refused_builds(void)
{
    const size_t rooms[] = {LAYOUT_LEN - 1, 1, 0};
    for (size_t i = 0; i < sizeof rooms / sizeof rooms[0]; i++) {
        build(CIZTARMO_WORDS, set, set_len, rooms[i]);
        REFUSED(CIZTARMO_WORDS, CIZTARMO_LAYOUT_DOES_NOT_FIT, 0);
        CHECK(all(out, 0, rooms[i], 0));
    }
    build(CIZTARMO_WORDS, set, set_len - 1, CIZTARMO_MAX_INPUT);
    REFUSED(CIZTARMO_WORDS, CIZTARMO_BLOCK_DOES_NOT_FIT, 0);
    CHECK(all(out, 0, CIZTARMO_MAX_INPUT, 0));

    /* The size expression `n` renamed to `m`, which no owner names: refused while the type is built, after bytes were written. */
    uint8_t other[sizeof trip];
    memcpy(other, set, set_len);
    other[set_len - 1] = 'm';
    build(CIZTARMO_WORDS, other, set_len, CIZTARMO_MAX_INPUT);
    ANSWER(CIZTARMO_WORDS, CIZTARMO_MISSING_PARAMETER, 0, 0, 0);
    CHECK(all(out, 0, CIZTARMO_MAX_INPUT, 0));
}

static void test_runs(void)
{
    const uint64_t lens[RUNS] = {13, 8, 12, 13};
    for (int i = 0; i < RUNS; i++) {
        const uint64_t *want = run_answers[i];
        validate_run(CIZTARMO_WORDS, layout, LAYOUT_LEN, runs[i], run_lens[i]);
        ANSWER(CIZTARMO_WORDS, want[0], want[1], want[2], want[3]);
        /* A run is: length, kind, name with its length, buffer length, values. */
        const uint8_t *values = runs[i] + 4 + 2 + 2 + sizeof name + 8;
        validate(CIZTARMO_WORDS, layout, LAYOUT_LEN, name, sizeof name, values, block_len(values), lens[i]);
        ANSWER(CIZTARMO_WORDS, want[0], want[1], want[2], want[3]);
    }
}

/* A layout and runs one behind the other, with the words that are lent for both. */
struct question {
    size_t many;
    const uint8_t *layout;
    size_t layout_len;
    const uint8_t *runs;
    size_t runs_len;
};

static const uint64_t *answer_of(size_t run)
{
    return answers + run * CIZTARMO_ANSWER_WORDS;
}

/* Asks with room for `room` words of answers; the words behind the answers that are given must stay. */
static size_t ask(int line, const struct question *q, size_t room)
{
    int same = 1;
    dirty(q->many);
    for (size_t i = 0; i < ROOM + SPARE_WORDS; i++)
        answers[i] = DIRTY_WORD;
    const size_t given =
        ciztarmo_validate_runs(words, q->many, q->layout, q->layout_len, q->runs, q->runs_len, answers, room);
    check_words(line, q->many);
    check(given <= room / CIZTARMO_ANSWER_WORDS, "there is room for the answers", line);
    for (size_t i = given * CIZTARMO_ANSWER_WORDS; i < ROOM + SPARE_WORDS; i++)
        same &= answers[i] == DIRTY_WORD;
    check(same, "the words behind the answers are untouched", line);
    return given;
}

/* The length of the run at the front: what its length field says, or what is there. */
static size_t piece_len(const uint8_t *bytes, size_t len)
{
    return len < 4 || block_len(bytes) > len ? len : block_len(bytes);
}

/* Each run has the answer that ciztarmo_validate_run gives it alone. Returns how many there are. */
static size_t as_alone(int line, const struct question *q)
{
    const size_t given = ask(line, q, ROOM);
    size_t run = 0;
    for (size_t at = 0, len; at < q->runs_len; at += len, run++) {
        len = piece_len(q->runs + at, q->runs_len - at);
        validate_run(q->many, q->layout, q->layout_len, q->runs + at, len);
        if (run < given)
            check_four(line, answer_of(run), answer);
    }
    check(run == given, "there are as many answers as runs", line);
    return given;
}

/* The four runs in one call. Room for fewer answers, or for parts of one more, gives those that fit. */
static void test_many_runs(void)
{
    const struct question q = {CIZTARMO_WORDS, layout, LAYOUT_LEN, runs[0], runs_len};
    const struct question more_words = {2 * CIZTARMO_WORDS, layout, LAYOUT_LEN, runs[0], runs_len};
    for (size_t room = 0; room < (RUNS + 2) * CIZTARMO_ANSWER_WORDS; room++) {
        const size_t given = ask(__LINE__, &q, room), fit = room / CIZTARMO_ANSWER_WORDS;
        CHECK(given == (fit < RUNS ? fit : RUNS));
        for (size_t i = 0; i < given && i < RUNS; i++)
            check_four(__LINE__, answer_of(i), run_answers[i]);
    }
    CHECK(as_alone(__LINE__, &more_words) == RUNS);
}

/* The runs cut off anywhere: what is left of the last one is refused. */
static void test_cut_runs(void)
{
    for (size_t len = 0; len <= runs_len; len++) {
        const struct question q = {CIZTARMO_WORDS, layout, LAYOUT_LEN, runs[0], len};
        const size_t given = as_alone(__LINE__, &q);
        size_t whole = 0, at = 0;
        while (whole < RUNS && run_lens[whole] <= len - at)
            at += run_lens[whole++];
        CHECK(given == whole + (at < len));
        CHECK(at == len || answer_of(whole)[CIZTARMO_NUMBER] == CIZTARMO_BLOCK_DOES_NOT_FIT);
    }
}

/* What is refused before a run is read is told of every run. */
static void test_refused_runs(void)
{
    uint8_t other[LAYOUT_LEN];
    memcpy(other, layout, LAYOUT_LEN);
    other[LAYOUT_LEN - 1] = 7;
    const struct {
        size_t many;
        const uint8_t *layout;
        size_t layout_len, number, offset;
    } cases[] = {{CIZTARMO_WORDS - 1, layout, LAYOUT_LEN, CIZTARMO_TOO_FEW_WORDS, 0},
                 {1, layout, LAYOUT_LEN, CIZTARMO_TOO_FEW_WORDS, 0},
                 {0, layout, LAYOUT_LEN, CIZTARMO_TOO_FEW_WORDS, 0},
                 {CIZTARMO_WORDS, too_long, CIZTARMO_MAX_INPUT + 1, CIZTARMO_INPUT_TOO_LONG, 0},
                 {CIZTARMO_WORDS, NULL, 0, CIZTARMO_BLOCK_DOES_NOT_FIT, 0},
                 {CIZTARMO_WORDS, layout, LAYOUT_LEN - 1, CIZTARMO_BLOCK_DOES_NOT_FIT, 0},
                 {CIZTARMO_WORDS, other, LAYOUT_LEN, CIZTARMO_INVALID_FLAG_OR_LITERAL, 202}};
    for (size_t i = 0; i < sizeof cases / sizeof cases[0]; i++) {
        const struct question q = {cases[i].many, cases[i].layout, cases[i].layout_len, runs[0], runs_len};
        const uint64_t want[] = {cases[i].number, CIZTARMO_NO_PLACE, cases[i].offset, 0};
        CHECK(as_alone(__LINE__, &q) == RUNS);
        for (size_t run = 0; run < RUNS; run++)
            check_four(__LINE__, answer_of(run), want);
    }
}

/* Blocks too short for a kind or a name, a good run, and three bytes. */
static void test_short_runs(void)
{
    static const uint8_t before[] = {0, 0, 0, 0, 1, 0, 0, 0, 193, 2, 0, 0, 0, 193, 0}, behind[] = {44, 0, 0};
    const uint64_t want[] = {2, 2, 2, 0, 2};
    uint8_t bytes[sizeof before + sizeof trip + sizeof behind];
    memcpy(bytes, before, sizeof before);
    memcpy(bytes + sizeof before, runs[0], run_lens[0]);
    memcpy(bytes + sizeof before + run_lens[0], behind, sizeof behind);
    const struct question q = {CIZTARMO_WORDS, layout, LAYOUT_LEN, bytes, sizeof before + run_lens[0] + sizeof behind};
    CHECK(as_alone(__LINE__, &q) == 5);
    for (size_t run = 0; run < 5; run++)
        CHECK(answer_of(run)[CIZTARMO_NUMBER] == want[run]);
    check_four(__LINE__, answer_of(3), run_answers[0]);
}

/* A block of 65,536 bytes or one more, there whole, and a run behind it. 1 is asked of each before the layout is read. */
static void test_long_runs(void)
{
    uint8_t *bytes = calloc(CIZTARMO_MAX_INPUT + 1 + sizeof trip, 1);
    if (bytes == NULL) {
        check(0, "there is memory", __LINE__);
        return;
    }
    for (size_t more = 0; more < 2; more++) {
        const size_t len = CIZTARMO_MAX_INPUT + more;
        memcpy(bytes, too_long, 4);
        bytes[0] -= (uint8_t)(1 - more);
        memcpy(bytes + len, runs[0], run_lens[0]);
        const struct question q = {CIZTARMO_WORDS, layout, LAYOUT_LEN, bytes, len + run_lens[0]};
        CHECK(as_alone(__LINE__, &q) == 2);
        CHECK(answer_of(0)[CIZTARMO_NUMBER] == (more ? CIZTARMO_INPUT_TOO_LONG : CIZTARMO_BLOCK_DOES_NOT_FIT));
        check_four(__LINE__, answer_of(1), run_answers[0]);
        const struct question refused = {CIZTARMO_WORDS, layout, LAYOUT_LEN - 1, bytes, len + run_lens[0]};
        CHECK(as_alone(__LINE__, &refused) == 2);
        CHECK(answer_of(0)[CIZTARMO_NUMBER] == (more ? CIZTARMO_INPUT_TOO_LONG : CIZTARMO_BLOCK_DOES_NOT_FIT));
        CHECK(answer_of(1)[CIZTARMO_NUMBER] == CIZTARMO_BLOCK_DOES_NOT_FIT);
    }
    /* Cut off, but longer than an input may be. */
    for (int at = 2; at < 4; at++) {
        const struct question cut = {CIZTARMO_WORDS, layout, LAYOUT_LEN, bytes, CIZTARMO_MAX_INPUT + 1};
        memset(bytes, 0, 4);
        bytes[at] = 2;
        CHECK(as_alone(__LINE__, &cut) == 1 && answer_of(0)[CIZTARMO_NUMBER] == CIZTARMO_INPUT_TOO_LONG);
    }
    free(bytes);
}

/* The four runs again and again, together longer than an input may be. */
static void test_runs_again(void)
{
    const size_t times = MOST_RUNS / RUNS, len = times * runs_len;
    uint8_t *bytes = malloc(len);
    if (bytes == NULL) {
        check(0, "there is memory", __LINE__);
        return;
    }
    for (size_t i = 0; i < times; i++)
        memcpy(bytes + i * runs_len, runs[0], runs_len);
    const struct question q = {CIZTARMO_WORDS, layout, LAYOUT_LEN, bytes, len};
    CHECK(len > CIZTARMO_MAX_INPUT);
    CHECK(ask(__LINE__, &q, ROOM) == MOST_RUNS);
    for (size_t i = 0; i < times; i++)
        CHECK(memcmp(answer_of(i * RUNS), run_answers, sizeof run_answers) == 0);
    free(bytes);
}

typedef void reading(uint64_t *, size_t, const uint8_t *, size_t, uint64_t[4]);

static reading *const readings[] = {ciztarmo_read_set, ciztarmo_read_layout, ciztarmo_read_values, ciztarmo_read_run};
#define READINGS (sizeof readings / sizeof readings[0])

static void read_with(reading *call, size_t many, const uint8_t *bytes, size_t len)
{
    dirty(many);
    call(words, many, bytes, len, answer);
}

static void test_readings(void)
{
    const uint8_t *values = runs[0] + 4 + 2 + 2 + sizeof name + 8;
    const uint8_t *good[] = {set, layout, values, runs[0]};
    const size_t lens[] = {set_len, LAYOUT_LEN, block_len(values), run_lens[0]};
    for (size_t call = 0; call < READINGS; call++)
        for (size_t input = 0; input < READINGS; input++) {
            read_with(readings[call], CIZTARMO_WORDS, good[input], lens[input]);
            if (call == input)
                ANSWER(CIZTARMO_WORDS, 0, CIZTARMO_NO_PLACE, 0, 0);
            else
                REFUSED(CIZTARMO_WORDS, CIZTARMO_BLOCK_DOES_NOT_FIT, 0);
        }
}

/* One byte of an accepted input is changed; the refusal has the start of the block that holds it. */
static void changed(reading *call, const uint8_t *good, size_t len, size_t at, uint8_t to, uint64_t number, uint64_t offset,
                    int line)
{
    uint8_t *bytes = malloc(len);
    if (bytes == NULL) {
        check(0, "there is memory", line);
        return;
    }
    memcpy(bytes, good, len);
    bytes[at] = to;
    read_with(call, CIZTARMO_WORDS, bytes, len);
    check_answer(line, CIZTARMO_WORDS, number, CIZTARMO_NO_PLACE, offset, 0);
    free(bytes);
}

static void test_refused_readings(void)
{
    /* In the set: its type stands at 8, the field n at 56 (its type at 74), the field legs at 109, its array at 122. */
    changed(ciztarmo_read_set, set, set_len, 4, 37, CIZTARMO_BLOCK_DOES_NOT_FIT, 0, __LINE__);
    changed(ciztarmo_read_set, set, set_len, 12, 8, CIZTARMO_BLOCK_DOES_NOT_FIT, 8, __LINE__);
    changed(ciztarmo_read_set, set, set_len, 16, 0x1F, CIZTARMO_INVALID_NAME, 8, __LINE__);
    changed(ciztarmo_read_set, set, set_len, 20, 2, CIZTARMO_INVALID_FLAG_OR_LITERAL, 8, __LINE__);
    changed(ciztarmo_read_set, set, set_len, 54, 65, CIZTARMO_ABOVE_LIMIT, 8, __LINE__);
    changed(ciztarmo_read_set, set, set_len, 65, 2, CIZTARMO_INVALID_FLAG_OR_LITERAL, 56, __LINE__);
    changed(ciztarmo_read_set, set, set_len, 82, 0x7F, CIZTARMO_INVALID_NAME, 74, __LINE__);
    changed(ciztarmo_read_set, set, set_len, 140, 2, CIZTARMO_INVALID_FLAG_OR_LITERAL, 122, __LINE__);
    /* In the layout: the node that asks for legs.n stands at 150, the parameter at 202. */
    changed(ciztarmo_read_layout, layout, LAYOUT_LEN, 150 + 4, 145, CIZTARMO_BLOCK_DOES_NOT_FIT, 150, __LINE__);
    changed(ciztarmo_read_layout, layout, LAYOUT_LEN, LAYOUT_LEN - 1, 7, CIZTARMO_INVALID_FLAG_OR_LITERAL, 202, __LINE__);
    changed(ciztarmo_read_run, runs[0], run_lens[0], 4, 192, CIZTARMO_BLOCK_DOES_NOT_FIT, 0, __LINE__);
    /* In the run: the values stand at 20. */
    changed(ciztarmo_read_run, runs[0], run_lens[0], 26, 2, CIZTARMO_BLOCK_DOES_NOT_FIT, 20, __LINE__);
    changed(ciztarmo_read_run, runs[0], run_lens[0], 27, 3, CIZTARMO_ABOVE_LIMIT, 20, __LINE__);

    static const uint8_t twice[] = {26, 0, 0, 0, 192, 0, 2, 0,                 /* values: 2 */
                                    1,  0, 'a', 0, 0, 0, 0, 0, 0, 0, 0, /* a is 0 */
                                    1,  0, 'b', 0, 0, 0, 0, 0, 0, 0, 0}; /* b is 0 */
    read_with(ciztarmo_read_values, CIZTARMO_WORDS, twice, sizeof twice);
    ANSWER(CIZTARMO_WORDS, 0, CIZTARMO_NO_PLACE, 0, 0);
    changed(ciztarmo_read_values, twice, sizeof twice, 21, 'a', CIZTARMO_NAMES_OUT_OF_ORDER, 0, __LINE__);
}

/* All calls on the same inputs, where the one refusal stands before any reading. */
static void every_call(size_t many, const uint8_t *a, size_t a_len, const uint8_t *b, size_t b_len, uint64_t number, int line)
{
    for (size_t i = 0; i < READINGS; i++) {
        read_with(readings[i], many, a, a_len);
        check_answer(line, many, number, CIZTARMO_NO_PLACE, 0, 0);
    }
    build(many, a, a_len, CIZTARMO_MAX_INPUT);
    check_answer(line, many, number, CIZTARMO_NO_PLACE, 0, 0);
    check(all(out, 0, CIZTARMO_MAX_INPUT, 0), "a refused build leaves zeros", line);
    for (int swapped = 0; swapped < 2; swapped++) {
        const uint8_t *first = swapped ? b : a, *second = swapped ? a : b;
        const size_t first_len = swapped ? b_len : a_len, second_len = swapped ? a_len : b_len;
        validate(many, first, first_len, name, sizeof name, second, second_len, 13);
        check_answer(line, many, number, CIZTARMO_NO_PLACE, 0, 0);
        validate_run(many, first, first_len, second, second_len);
        check_answer(line, many, number, CIZTARMO_NO_PLACE, 0, 0);
        const struct question q = {many, first, first_len, second, second_len};
        const uint64_t want[] = {number, CIZTARMO_NO_PLACE, 0, 0};
        const size_t given = ask(line, &q, ROOM);
        check(given == (second_len > 0), "one run has an answer", line);
        if (given > 0)
            check_four(line, answer_of(0), want);
    }
}

static void test_before_reading(void)
{
    const size_t few[] = {CIZTARMO_WORDS - 1, 1, 0};
    for (size_t i = 0; i < sizeof few / sizeof few[0]; i++)
        every_call(few[i], set, set_len, layout, LAYOUT_LEN, CIZTARMO_TOO_FEW_WORDS, __LINE__);
    /* 19 is asked before 1. */
    every_call(CIZTARMO_WORDS - 1, too_long, CIZTARMO_MAX_INPUT + 1, set, set_len, CIZTARMO_TOO_FEW_WORDS, __LINE__);
    every_call(CIZTARMO_WORDS, too_long, CIZTARMO_MAX_INPUT + 1, layout, LAYOUT_LEN, CIZTARMO_INPUT_TOO_LONG, __LINE__);
    every_call(CIZTARMO_WORDS, too_long, CIZTARMO_MAX_INPUT, layout, LAYOUT_LEN, CIZTARMO_BLOCK_DOES_NOT_FIT, __LINE__);
    every_call(CIZTARMO_WORDS, too_long, 0, too_long, 0, CIZTARMO_BLOCK_DOES_NOT_FIT, __LINE__);
    every_call(CIZTARMO_WORDS, NULL, 0, NULL, 0, CIZTARMO_BLOCK_DOES_NOT_FIT, __LINE__);
}

static void test_asked_names(void)
{
    const uint8_t *values = runs[0] + 4 + 2 + 2 + sizeof name + 8;
    const struct {
        const uint8_t *name;
        size_t len;
    } unknown[] = {{name, 3}, {name, 0}, {NULL, 0}, {too_long, CIZTARMO_MAX_INPUT + 1}, {(const uint8_t *)"trip", 4}};
    for (size_t i = 0; i < sizeof unknown / sizeof unknown[0]; i++) {
        validate(CIZTARMO_WORDS, layout, LAYOUT_LEN, unknown[i].name, unknown[i].len, values, block_len(values), 13);
        REFUSED(CIZTARMO_WORDS, CIZTARMO_UNKNOWN_TYPE, 0);
    }
}

/* An output without an address, no words, no room for answers: nothing is written. */
static void test_no_buffers(void)
{
    dirty(CIZTARMO_WORDS);
    ciztarmo_build_set(words, CIZTARMO_WORDS, set, set_len, NULL, 0, answer);
    REFUSED(CIZTARMO_WORDS, CIZTARMO_LAYOUT_DOES_NOT_FIT, 0);
    dirty(0);
    ciztarmo_build_set(NULL, 0, set, set_len, NULL, 0, answer);
    REFUSED(0, CIZTARMO_TOO_FEW_WORDS, 0);
    ciztarmo_layout_of(set, set_len, NULL, 0, answer);
    REFUSED(0, CIZTARMO_LAYOUT_DOES_NOT_FIT, 0);
    dirty(CIZTARMO_WORDS);
    CHECK(ciztarmo_validate_runs(words, CIZTARMO_WORDS, layout, LAYOUT_LEN, runs[0], runs_len, NULL, 0) == 0);
    check_words(__LINE__, CIZTARMO_WORDS);
    CHECK(ciztarmo_validate_runs(NULL, 0, NULL, 0, NULL, 0, NULL, 0) == 0);
}

/* A copy of the example's bytes with two of its names spelt with others of as many bytes. */
static void spelt(uint8_t *to, const uint8_t *from, size_t len, const char *for_trip, const char *for_legs)
{
    memcpy(to, from, len);
    for (size_t at = 0; at + 4 <= len; at++) {
        if (memcmp(from + at, "Trip", 4) == 0)
            memcpy(to + at, for_trip, 4);
        if (memcmp(from + at, "legs", 4) == 0)
            memcpy(to + at, for_legs, 4);
    }
}

/* The type and the field under names beyond ASCII: built, counted and refused as under their own. */
static void test_spelt(void)
{
    static const char bus[] = "\xF0\x9F\x9A\x8C", accents[] = "\xC3\xA9\xC3\xAA";
    uint8_t other[sizeof trip], other_layout[LAYOUT_LEN];
    spelt(other, set, set_len, bus, accents);
    spelt(other_layout, layout, LAYOUT_LEN, bus, accents);
    dirty(CIZTARMO_WORDS);
    ciztarmo_build_set(words, CIZTARMO_WORDS, other, set_len, out, CIZTARMO_MAX_INPUT, answer);
    ANSWER(CIZTARMO_WORDS, 0, CIZTARMO_NO_PLACE, 0, LAYOUT_LEN);
    CHECK(memcmp(out, other_layout, LAYOUT_LEN) == 0 && memcmp(out, layout, LAYOUT_LEN) != 0);
    for (int i = 0; i < RUNS; i++) {
        spelt(other, runs[i], run_lens[i], bus, accents);
        dirty(CIZTARMO_WORDS);
        ciztarmo_validate_run(words, CIZTARMO_WORDS, other_layout, LAYOUT_LEN, other, run_lens[i], answer);
        check_words(__LINE__, CIZTARMO_WORDS);
        check_four(__LINE__, answer, run_answers[i]);
    }
}

/* The same with names that are not UTF-8: a byte of a character missing, two halves, a surrogate, one above U+10FFFF. */
static void test_misspelt(void)
{
    static const char *const bad[] = {"\xF0\x9F\x9A(", "ab\xC3(", "nop\xC3", "\xA9nop", "n\xED\xA0\x80", "\xF4\x90\x80\x80", "\xC0\x80no"};
    uint8_t other[sizeof trip];
    for (size_t i = 0; i < sizeof bad / sizeof bad[0]; i++) {
        spelt(other, set, set_len, bad[i], "legs");
        read_with(ciztarmo_read_set, CIZTARMO_WORDS, other, set_len);
        REFUSED(CIZTARMO_WORDS, CIZTARMO_INVALID_NAME, 8);
        spelt(other, layout, LAYOUT_LEN, bad[i], "legs");
        read_with(ciztarmo_read_layout, CIZTARMO_WORDS, other, LAYOUT_LEN);
        REFUSED(CIZTARMO_WORDS, CIZTARMO_INVALID_NAME, 8);
        spelt(other, runs[0], run_lens[0], bad[i], "legs");
        read_with(ciztarmo_read_run, CIZTARMO_WORDS, other, run_lens[0]);
        REFUSED(CIZTARMO_WORDS, CIZTARMO_INVALID_NAME, 0);
        /* The values stand behind the type's name and the buffer length. */
        spelt(other, runs[0], run_lens[0], "Trip", bad[i]);
        read_with(ciztarmo_read_run, CIZTARMO_WORDS, other, run_lens[0]);
        REFUSED(CIZTARMO_WORDS, CIZTARMO_INVALID_NAME, 4 + 2 + 2 + sizeof name + 8);
    }
}

static int used(uint64_t number)
{
    return number <= 6 || (number >= 10 && number <= 27);
}

static void test_texts(void)
{
    for (uint64_t n = 0; n < 300; n++) {
        const char *text = ciztarmo_refusal_name(n), *sentence = ciztarmo_refusal_sentence(n);
        CHECK(text != NULL && sentence != NULL);
        CHECK(used(n) == (strcmp(text, "?") != 0) && used(n) == (strcmp(sentence, "?") != 0));
        for (uint64_t m = 0; m < n && used(n); m++)
            CHECK(strcmp(text, ciztarmo_refusal_name(m)) != 0 && strcmp(sentence, ciztarmo_refusal_sentence(m)) != 0);
    }
    CHECK(strcmp(ciztarmo_refusal_name(UINT64_MAX), "?") == 0);
    CHECK(strcmp(ciztarmo_refusal_name(CIZTARMO_UNSUPPORTED_SIZE), "UnsupportedSize") == 0);
    CHECK(strcmp(ciztarmo_refusal_name(CIZTARMO_MISSING_TYPE), "MissingType") == 0);
    CHECK(strcmp(ciztarmo_refusal_name(CIZTARMO_TOO_FEW_WORDS), "TooFewWords") == 0);
    CHECK(strcmp(ciztarmo_refusal_name(CIZTARMO_BUFFER_TOO_SMALL), "BufferTooSmall") == 0);
    CHECK(CIZTARMO_UNKNOWN_TYPE == 20 && CIZTARMO_TOO_MANY_CALLS == 27 && CIZTARMO_UNSUPPORTED_EXPRESSION == 14);
}

int main(int argc, char **argv)
{
    words = malloc((2 * CIZTARMO_WORDS + SPARE_WORDS) * sizeof *words);
    out = malloc(CIZTARMO_MAX_INPUT);
    own_out = malloc(CIZTARMO_MAX_INPUT);
    too_long = calloc(CIZTARMO_MAX_INPUT + 1, 1);
    answers = malloc((ROOM + SPARE_WORDS) * sizeof *answers);
    if (argc != 2 || words == NULL || out == NULL || own_out == NULL || too_long == NULL || answers == NULL) {
        fprintf(stderr, "usage: test examples/trip\n");
        return 2;
    }
    too_long[0] = (CIZTARMO_MAX_INPUT + 1 - 4) & 0xFF;
    too_long[1] = (CIZTARMO_MAX_INPUT + 1 - 4) >> 8;
    if (!read_trip(argv[1]))
        return 2;
    test_build();
    test_refused_builds();
    test_runs();
    test_many_runs();
    test_cut_runs();
    test_refused_runs();
    test_short_runs();
    test_long_runs();
    test_runs_again();
    test_readings();
    test_refused_readings();
    test_before_reading();
    test_asked_names();
    test_no_buffers();
    test_spelt();
    test_misspelt();
    test_texts();
    free(words);
    free(out);
    free(own_out);
    free(too_long);
    free(answers);
    if (failures != 0) {
        fprintf(stderr, "%lu of %lu checks failed\n", failures, checks);
        return 1;
    }
    printf("%lu\n", checks);
    return 0;
}
