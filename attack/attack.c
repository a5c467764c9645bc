/*
 * The fuzz target: makes a call from an input, asks the Rust driver what it must answer, calls the archive with each buffer at the
 * start and at the end of memory between two pages that trap, and holds answers, output and words against what they must be.
 */
#include "attack.h"

#include "../c/ciztarmo.h"

#include <inttypes.h>
#include <stdio.h>
#include <stdlib.h>
#include <string.h>

#define MOST_WORDS 10000
#define SLACK 64
#define MOST_KEPT 20

typedef void reading(uint64_t *, size_t, const uint8_t *, size_t, uint64_t[4]);
typedef void building(uint64_t *, size_t, const uint8_t *, size_t, uint8_t *, size_t, uint64_t[4]);
typedef void validating(uint64_t *, size_t, const uint8_t *, size_t, const uint8_t *, size_t, const uint8_t *, size_t, uint64_t,
                        uint64_t[4]);
typedef void validating_run(uint64_t *, size_t, const uint8_t *, size_t, const uint8_t *, size_t, uint64_t[4]);
typedef size_t validating_runs(uint64_t *, size_t, const uint8_t *, size_t, const uint8_t *, size_t, uint64_t *, size_t);
typedef void building_alone(const uint8_t *, size_t, uint8_t *, size_t, uint64_t[4]);
typedef void measuring(const uint8_t *, size_t, const uint8_t *, size_t, const uint8_t *, size_t, uint64_t, uint64_t[4]);
typedef void measuring_run(const uint8_t *, size_t, const uint8_t *, size_t, uint64_t[4]);

/* The archive as it is shipped, and the same code compiled with counters for edges and checks of addresses. */
struct code {
    const char *name;
    reading *reading[4];
    building *build;
    validating *validate;
    validating_run *validate_run;
    validating_runs *validate_runs;
    building_alone *layout_of;
    measuring *length_of;
    measuring_run *length_of_run;
};

#ifdef ATTACK_WATCHED
reading watched_ciztarmo_read_set, watched_ciztarmo_read_layout, watched_ciztarmo_read_values, watched_ciztarmo_read_run;
building watched_ciztarmo_build_set;
validating watched_ciztarmo_validate;
validating_run watched_ciztarmo_validate_run;
validating_runs watched_ciztarmo_validate_runs;
building_alone watched_ciztarmo_layout_of;
measuring watched_ciztarmo_length_of;
measuring_run watched_ciztarmo_length_of_run;
#endif

static const struct code codes[] = {
    {"the archive",
     {ciztarmo_read_set, ciztarmo_read_layout, ciztarmo_read_values, ciztarmo_read_run},
     ciztarmo_build_set,
     ciztarmo_validate,
     ciztarmo_validate_run,
     ciztarmo_validate_runs,
     ciztarmo_layout_of,
     ciztarmo_length_of,
     ciztarmo_length_of_run},
#ifdef ATTACK_WATCHED
    {"the watched code",
     {watched_ciztarmo_read_set, watched_ciztarmo_read_layout, watched_ciztarmo_read_values, watched_ciztarmo_read_run},
     watched_ciztarmo_build_set,
     watched_ciztarmo_validate,
     watched_ciztarmo_validate_run,
     watched_ciztarmo_validate_runs,
     watched_ciztarmo_layout_of,
     watched_ciztarmo_length_of,
     watched_ciztarmo_length_of_run},
#endif
};

static struct attack_lent words, out, answers, first, name, second;

/* What words and output hold before a call; as long as the longest of them. */
static uint8_t pattern[ATTACK_PART + 2 * SLACK + MOST_WORDS * 8];
static const uint8_t zeros[sizeof pattern];

static uint8_t long_part[ATTACK_PART];

/* The input that is being tried, to keep it where an answer differs. */
static const uint8_t *now;
static size_t now_size;
static int now_differs;

static void keep(void)
{
    const char *folder = getenv("ATTACK_FOUND");
    if (folder == NULL || attack_counts.differences > MOST_KEPT)
        return;
    uint64_t hash = UINT64_C(14695981039346656037);
    for (size_t i = 0; i < now_size; i++)
        hash = (hash ^ now[i]) * UINT64_C(1099511628211);
    char path[4096];
    snprintf(path, sizeof path, "%s/difference-%016" PRIx64, folder, hash);
    FILE *f = fopen(path, "wb");
    if (f == NULL || fwrite(now, 1, now_size, f) != now_size || fclose(f) != 0)
        perror(path);
    else
        fprintf(stderr, "attack: kept as %s\n", path);
}

/* Counts an input once, whatever number of its calls differ. */
static void differs(const struct attack_call *call, const char *code, int at_end, const char *what)
{
    if (attack_counts.differences < MOST_KEPT)
        fprintf(stderr, "attack: DIFFERENCE in %s, %s, buffers at the %s: %s\n", attack_call_names[call->what], code,
                at_end ? "end" : "start", what);
    if (now_differs)
        return;
    now_differs = 1;
    attack_counts.differences++;
    keep();
    if (getenv("ATTACK_STOP") != NULL)
        exit(1);
}

/* Where `len` bytes lie in lent memory. */
static size_t place(const struct attack_lent *lent, size_t len, int at_end)
{
    return at_end ? lent->size - len : 0;
}

static const uint8_t *lend_bytes(const struct attack_lent *lent, struct attack_bytes bytes, int at_end)
{
    const size_t at = place(lent, bytes.len, at_end);
    if (bytes.len > 0)
        memcpy(lent->write + at, bytes.at, bytes.len);
    return lent->lent + at;
}

/* Fills lent memory, and some bytes around it where there are any, with the pattern. */
static uint8_t *lend_dirty(const struct attack_lent *lent, size_t len, int at_end)
{
    const size_t at = place(lent, len, at_end);
    const size_t from = at < SLACK ? 0 : at - SLACK;
    const size_t to = lent->size - at - len < SLACK ? lent->size : at + len + SLACK;
    memcpy(lent->write + from, pattern, to - from);
    return lent->lent + at;
}

/* Whether the bytes around lent memory are as lend_dirty left them. */
static int slack_stayed(const struct attack_lent *lent, size_t len, int at_end)
{
    const size_t at = place(lent, len, at_end);
    const size_t from = at < SLACK ? 0 : at - SLACK;
    const size_t to = lent->size - at - len < SLACK ? lent->size : at + len + SLACK;
    return memcmp(lent->write + from, pattern, at - from) == 0 &&
           memcmp(lent->write + at + len, pattern + (at + len - from), to - at - len) == 0;
}

/* Whether lent memory has these bytes first, and behind them what stood there. */
static int begins(const struct attack_lent *lent, size_t room, int at_end, const void *bytes, size_t len)
{
    const size_t at = place(lent, room, at_end);
    const size_t before = at < SLACK ? at : SLACK;
    return len <= room && memcmp(lent->write + at, bytes, len) == 0 &&
           memcmp(lent->write + at + len, pattern + before + len, room - len) == 0;
}

/* The output after the call: the layout and then what stood there, or zeros. */
static int output_as_expected(size_t room, int at_end, const struct attack_expected *want)
{
    if (want->answers[CIZTARMO_NUMBER] != 0)
        return memcmp(out.write + place(&out, room, at_end), zeros, room) == 0;
    return begins(&out, room, at_end, want->layout, want->layout_len);
}

static void tell_answer(const uint64_t *got, const uint64_t *want, size_t i)
{
    fprintf(stderr, "attack: answered");
    for (int k = 0; k < 4; k++)
        fprintf(stderr, " %" PRIu64, got[k]);
    fprintf(stderr, ", expected");
    for (int k = 0; k < 4; k++)
        fprintf(stderr, " %" PRIu64, want[k]);
    fprintf(stderr, " (number, place, offset, value), answer %lu\n", (unsigned long)i);
}

/* The first answer that differs, counted from 0. Where none does, a word behind them changed. */
static void tell_answers(const uint64_t *got, const struct attack_expected *want)
{
    for (size_t i = 0; i < want->many; i++) {
        if (memcmp(got + 4 * i, want->answers + 4 * i, 32) == 0)
            continue;
        tell_answer(got + 4 * i, want->answers + 4 * i, i);
        return;
    }
}

/* The bytes that are lent for answers. */
static size_t answer_bytes(const struct attack_call *call)
{
    return 8 * (call->what == ATTACK_VALIDATE_RUNS ? (size_t)call->room : CIZTARMO_ANSWER_WORDS);
}

/* Calls one code with the buffers at one end of their memory. How many answers it says that there are. */
static size_t called(const struct code *code, const struct attack_call *call, int at_end)
{
    const size_t many = (size_t)call->words, room = (size_t)call->room;
    uint64_t *w = (uint64_t *)(void *)lend_dirty(&words, many * 8, at_end);
    uint64_t *a = (uint64_t *)(void *)lend_dirty(&answers, answer_bytes(call), at_end);
    const uint8_t *one = lend_bytes(&first, call->first, at_end);
    const uint8_t *asked = lend_bytes(&name, call->name, at_end);
    const uint8_t *two = lend_bytes(&second, call->second, at_end);
    const size_t len = call->first.len;
    size_t told = 1;
    switch (call->what) {
    case ATTACK_BUILD_SET:
        code->build(w, many, one, len, lend_dirty(&out, room, at_end), room, a);
        break;
    case ATTACK_VALIDATE:
        code->validate(w, many, one, len, asked, call->name.len, two, call->second.len, call->length, a);
        break;
    case ATTACK_VALIDATE_RUN:
        code->validate_run(w, many, one, len, two, call->second.len, a);
        break;
    case ATTACK_VALIDATE_RUNS:
        told = code->validate_runs(w, many, one, len, two, call->second.len, a, room);
        break;
    case ATTACK_LENGTH_OF:
        code->length_of(one, len, asked, call->name.len, two, call->second.len, call->length, a);
        break;
    case ATTACK_LENGTH_OF_RUN:
        code->length_of_run(one, len, two, call->second.len, a);
        break;
    default:
        code->reading[call->what](w, many, one, len, a);
    }
#ifdef ATTACK_FAULT
    /* To try the attack's power: a wrong answer for a rare input. */
    for (const uint64_t *end = a + 4 * told; a < end; a += 4)
        if (ATTACK_FAULT)
            a[CIZTARMO_OFFSET] ^= 1;
#endif
    return told;
}

static void hold_output(const struct code *code, const struct attack_call *call, int at_end, const struct attack_expected *want)
{
    const size_t room = (size_t)call->room;
    if (!output_as_expected(room, at_end, want))
        differs(call, code->name, at_end, "the output");
    if (!slack_stayed(&out, room, at_end))
        differs(call, code->name, at_end, "bytes around the output changed");
}

static void hold(const struct code *code, const struct attack_call *call, int at_end, const struct attack_expected *want)
{
    const size_t many = (size_t)call->words, told = answer_bytes(call);
    const int runs = call->what == ATTACK_VALIDATE_RUNS;
    if (called(code, call, at_end) != want->many)
        differs(call, code->name, at_end, "the number of answers");
    if (!begins(&answers, told, at_end, want->answers, want->many * 32)) {
        differs(call, code->name, at_end, runs ? "the answers or the words behind them" : "the answer");
        if (attack_counts.differences <= MOST_KEPT)
            tell_answers((uint64_t *)(void *)(answers.write + place(&answers, told, at_end)), want);
    }
    if (memcmp(words.write + place(&words, many * 8, at_end), zeros, many * 8) != 0)
        differs(call, code->name, at_end, "the words are not zero");
    if (!slack_stayed(&words, many * 8, at_end) || !slack_stayed(&answers, told, at_end))
        differs(call, code->name, at_end, "bytes around the words or the answers changed");
    if (call->what == ATTACK_BUILD_SET)
        hold_output(code, call, at_end, want);
}

/* A build with enough words, once more with none lent: ciztarmo_layout_of must leave the same. */
static void hold_alone(const struct code *code, const struct attack_call *call, int at_end, const struct attack_expected *want)
{
    const size_t room = (size_t)call->room, told = answer_bytes(call);
    uint64_t *a = (uint64_t *)(void *)lend_dirty(&answers, told, at_end);
    const uint8_t *set = lend_bytes(&first, call->first, at_end);
    code->layout_of(set, call->first.len, lend_dirty(&out, room, at_end), room, a);
    if (!begins(&answers, told, at_end, want->answers, 32))
        differs(call, code->name, at_end, "the answer of layout_of");
    if (!slack_stayed(&answers, told, at_end))
        differs(call, code->name, at_end, "bytes around the answer of layout_of changed");
    hold_output(code, call, at_end, want);
}

static void count(const struct attack_call *call, const struct attack_expected *want)
{
    attack_counts.calls++;
    attack_counts.confirmed += want->verdict == ATTACK_CONFIRMED;
    attack_counts.rules_only += want->verdict == ATTACK_RULES_ONLY;
    attack_counts.by_call[call->what]++;
    if (call->what == ATTACK_VALIDATE_RUNS)
        attack_counts.runs += want->many;
    for (size_t i = 0; i < want->many; i++)
        attack_counts.by_number[want->answers[4 * i + CIZTARMO_NUMBER] & 31]++;
}

/* One call, by each code and at each end of its memory. Whether it was compared and a layout came out. */
static int compare(const struct attack_call *call, struct attack_expected *want)
{
    static uint8_t layout[CIZTARMO_MAX_INPUT];
    attack_expect(call, want);
    if (want->verdict == ATTACK_STOPPED) {
        attack_counts.stopped++;
        return 0;
    }
    if (want->layout_len > 0)
        want->layout = memcpy(layout, want->layout, want->layout_len);
    if (want->verdict == ATTACK_DIFFERS)
        differs(call, "the Rust", 0, "the rules and the unchanged Rust differ");
    const int alone = call->what == ATTACK_BUILD_SET && call->words >= CIZTARMO_WORDS;
    count(call, want);
    attack_counts.layout_of += (uint64_t)alone;
    for (size_t i = 0; i < sizeof codes / sizeof codes[0]; i++)
        for (int at_end = 0; at_end < 2; at_end++) {
            hold(&codes[i], call, at_end, want);
            if (alone)
                hold_alone(&codes[i], call, at_end, want);
        }
    return want->layout_len > 0;
}

static uint64_t words_of(uint8_t choice)
{
    static const uint64_t few_or_many[] = {1, 15, 16, 17, 8191, 0, 8193, MOST_WORDS};
    return choice < 248 ? CIZTARMO_WORDS : few_or_many[choice - 248];
}

/* The words of the answers to as many runs as are tried. Fewer over a long layout, which may have more arguments to look up. */
static uint64_t most_answers(size_t layout_len)
{
    const uint64_t runs = 16384 / (layout_len + 1);
    return CIZTARMO_ANSWER_WORDS * (runs < 2 ? 2 : runs < ATTACK_RUNS ? runs : ATTACK_RUNS);
}

/* The room of output or answers: as much as may be, or near what this layout or these runs need. */
static uint64_t room_of(uint8_t choice, struct attack_call *call)
{
    struct attack_expected all;
    const int runs = call->what == ATTACK_VALIDATE_RUNS;
    const uint64_t most = runs ? most_answers(call->first.len) : CIZTARMO_MAX_INPUT;
    call->room = most;
    if (choice < 240)
        return most;
    attack_expect(call, &all);
    const uint64_t len = runs ? all.many * CIZTARMO_ANSWER_WORDS : all.layout_len;
    const uint64_t rooms[] = {len, len - (len > 0), len + 1, 0, 1, len / 2, most - 1, len + 7};
    return rooms[choice % 8];
}

/* Fills the pattern by the input's choice: one byte all over, counting bytes, or bytes of the input itself. */
static void choose_pattern(const struct attack_input *in)
{
    static int last = -1;
    const int choice = in->dirty & 3;
    if (choice != 3 && in->dirty == last)
        return;
    last = in->dirty;
    for (size_t i = 0; i < sizeof pattern && choice == 2; i++)
        pattern[i] = (uint8_t)(i / 8 + in->dirty);
    for (size_t i = 0; i < sizeof pattern && choice == 3; i++)
        pattern[i] = now[i % now_size];
    if (choice < 2)
        memset(pattern, choice == 0 ? in->dirty : ~in->dirty, sizeof pattern);
}

/* For question 1: one part is filled with zeros up to a length near the limit. */
static void lengthen(struct attack_input *in)
{
    static const size_t lens[] = {65537, 65536, 65537, 65536, 65537, 65540};
    if (in->pad < 250)
        return;
    const int choice = in->pad - 250;
    struct attack_bytes *part = choice == 4 ? &in->name : choice == 2 || choice == 3 ? &in->second : &in->first;
    if (part->len >= lens[choice])
        return;
    memset(long_part, 0, sizeof long_part);
    if (part->len > 0)
        memcpy(long_part, part->at, part->len);
    part->at = long_part;
    part->len = lens[choice];
}

/* A call with the words and the room that the input chooses. */
static int try_call(const struct attack_input *in, struct attack_call *call, struct attack_expected *want)
{
    const int lent = call->what != ATTACK_LENGTH_OF && call->what != ATTACK_LENGTH_OF_RUN;
    call->words = lent ? words_of(in->words) : 0;
    if (call->what == ATTACK_BUILD_SET || call->what == ATTACK_VALIDATE_RUNS)
        call->room = room_of(in->room, call);
    return compare(call, want);
}

/* The call of an input; where a set is built first, then the validation over its layout. */
static void try_input(const struct attack_input *in)
{
    static const uint32_t behind[] = {ATTACK_VALIDATE, ATTACK_VALIDATE_RUN, ATTACK_VALIDATE_RUNS};
    const int builds = in->what >= ATTACK_CALLS;
    struct attack_expected want;
    struct attack_call call = {builds ? ATTACK_BUILD_SET : in->what, 0, 0, in->length, in->first, in->name, in->second};
    if (!try_call(in, &call, &want) || !builds)
        return;
    call.first.at = want.layout;
    call.first.len = want.layout_len;
    call.what = behind[in->what - ATTACK_CALLS];
    try_call(in, &call, &want);
}

int LLVMFuzzerInitialize(int *argc, char ***argv)
{
    (void)argc;
    (void)argv;
    attack_lend(&words, MOST_WORDS * 8, 0);
    attack_lend(&out, ATTACK_PART, 0);
    attack_lend(&answers, (most_answers(0) + 7) * 8, 0);
    attack_lend(&first, ATTACK_PART, 1);
    attack_lend(&name, ATTACK_PART, 1);
    attack_lend(&second, ATTACK_PART, 1);
    attack_begin();
    atexit(attack_report);
    return 0;
}

int LLVMFuzzerTestOneInput(const uint8_t *data, size_t size)
{
    struct attack_input in;
    if (!attack_parse(data, size, &in))
        return 0;
    now = data;
    now_size = size;
    now_differs = 0;
    attack_counts.inputs++;
    choose_pattern(&in);
    lengthen(&in);
    try_input(&in);
    attack_note_edges();
    return 0;
}
