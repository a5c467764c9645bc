/*
 * Tests of ciztarmo_write_values. Lists of values are made by chance (always the same) with at most one fault each. A writer of this
 * file's own, which sorts and checks nothing, writes the same list; the proved reader reads that, and the answers must agree: what it
 * refuses is refused with its number, what it accepts is written, byte for byte the same.
 *
 * Prints the number of checks; a check that fails is told with file and line, and the status is 1.
 */
#include "ciztarmo.h"

#include <stdio.h>
#include <stdlib.h>
#include <string.h>

#define MOST 514
#define NAME_ROOM 300
#define BLOCK_ROOM (8 + MOST * (10 + NAME_ROOM))
#define DIRTY 0x5A

static unsigned long checks, failures;

static void check(int good, const char *what, int line)
{
    checks++;
    if (good)
        return;
    failures++;
    fprintf(stderr, "%s:%d: not so: %s\n", __FILE__, line, what);
}

#define CHECK(c) check((c) != 0, #c, __LINE__)

static char names[MOST][NAME_ROOM];
static struct ciztarmo_value values[MOST], sorted[MOST];
static uint8_t plain[BLOCK_ROOM];
static uint64_t words[CIZTARMO_WORDS];
static uint64_t answer[CIZTARMO_ANSWER_WORDS];

static uint32_t chance(uint32_t below)
{
    static uint64_t state = 1;
    state = state * UINT64_C(6364136223846793005) + UINT64_C(1442695040888963407);
    return (uint32_t)(state >> 33) % below;
}

static int by_name(const void *a, const void *b)
{
    return strcmp(((const struct ciztarmo_value *)a)->name, ((const struct ciztarmo_value *)b)->name);
}

static size_t put(size_t at, uint64_t number, int bytes)
{
    for (; bytes > 0; bytes--, number >>= 8)
        plain[at++] = (uint8_t)number;
    return at;
}

/* The list as a block, whatever it is. Returns its length. */
static size_t write_plainly(size_t count)
{
    size_t at = put(put(4, 192, 2), count, 2);
    memcpy(sorted, values, count * sizeof values[0]);
    qsort(sorted, count, sizeof sorted[0], by_name);
    for (size_t i = 0; i < count; i++) {
        const size_t length = strlen(sorted[i].name);
        at = put(at, length, 2);
        memcpy(plain + at, sorted[i].name, length);
        at = put(at + length, sorted[i].number, 8);
    }
    put(0, at - 4, 4);
    return at;
}

/* Characters that names are made of besides those of one byte: of each length, alike but for one byte, at the edges. */
static const char *const more_bytes[] = {"\xC3\xA9", "\xC3\xAA", "e\xCC\x81", "\xC2\x80", "\xDF\xBF", "\xE0\xA0\x80", "\xE2\x82\xAC",
                                         "\xED\x9F\xBF", "\xEF\xBF\xBF", "\xF0\x90\x80\x80", "\xF0\x9F\x9A\x8C", "\xF4\x8F\xBF\xBF"};

/* Distinct names: their last bytes are the value's place, the characters before are by chance, in half of the lists of ASCII alone. */
static void make(size_t count, size_t longest)
{
    const int plain_names = chance(2);
    for (size_t i = 0; i < count; i++) {
        size_t before = 0;
        for (size_t room = chance((uint32_t)(longest - 3)); before < room;) {
            const char *some = more_bytes[chance(sizeof more_bytes / sizeof more_bytes[0])];
            if (plain_names || chance(3) || before + strlen(some) > room)
                names[i][before++] = (char)(0x20 + chance(chance(2) ? 2 : 0x5F));
            else
                before += (size_t)sprintf(names[i] + before, "%s", some);
        }
        sprintf(names[i] + before, "%03x", (unsigned)i);
        values[i].name = names[i];
        values[i].number = (uint64_t)chance(1u << 31) << chance(33);
    }
}

enum fault { NONE, LOW_BYTE, HIGH_BYTE, LONG_NAME, TWICE, FAULTS };

/* Puts a fault into the list; tells the place that is refused. */
static size_t spoil(enum fault fault, size_t count)
{
    size_t at = chance((uint32_t)count), other;
    switch (fault) {
    case LOW_BYTE:
        names[at][chance((uint32_t)strlen(names[at]))] = (char)(1 + chance(0x1F));
        return at;
    case HIGH_BYTE:
        /* Among the three digits, where it is a part of no character. */
        names[at][strlen(names[at]) - 1 - chance(3)] = (char)(0x7F + chance(0x81));
        return at;
    case LONG_NAME:
        memset(names[at], 'n', 256);
        names[at][256] = 0;
        return at;
    case TWICE:
        other = chance((uint32_t)count - 1);
        other += other >= at;
        memmove(names[at], names[other], NAME_ROOM);
        return at > other ? at : other;
    default:
        return CIZTARMO_NO_PLACE;
    }
}

static void check_answer(int line, uint64_t number, uint64_t place, uint64_t value)
{
    const uint64_t want[CIZTARMO_ANSWER_WORDS] = {number, place, 0, value};
    for (int i = 0; i < CIZTARMO_ANSWER_WORDS; i++) {
        checks++;
        if (answer[i] == want[i])
            continue;
        failures++;
        fprintf(stderr, "%s:%d: word %d of the answer is %llu, not %llu\n", __FILE__, line, i, (unsigned long long)answer[i],
                (unsigned long long)want[i]);
    }
}

/* Writes with so much room, on the heap, where the sanitizer sees an access outside; the bytes must be these, and then untouched. */
static void write_with(int line, size_t count, size_t room, const uint8_t *bytes, size_t length)
{
    uint8_t *out = malloc(room + 1);
    if (out == NULL) {
        check(0, "there is memory", line);
        return;
    }
    memset(out, DIRTY, room + 1);
    memset(answer, 0xA5, sizeof answer);
    ciztarmo_write_values(values, count, out, room, answer);
    check(memcmp(out, bytes, length) == 0, "the block is as written plainly", line);
    size_t at = length;
    while (at <= room && out[at] == DIRTY)
        at++;
    check(at == room + 1, "bytes behind the block stay", line);
    free(out);
}

/* The list against the reader; `place` is that of a refused value. */
static void held(int line, size_t count, uint64_t place)
{
    const size_t length = write_plainly(count);
    ciztarmo_read_values(words, CIZTARMO_WORDS, plain, length, answer);
    const uint64_t number = answer[CIZTARMO_NUMBER];
    const size_t more = chance(3);
    write_with(line, count, length + more, plain, number == 0 ? length : 0);
    if (number != 0) {
        check_answer(line, number, place, number == CIZTARMO_INPUT_TOO_LONG ? length : 0);
        return;
    }
    check_answer(line, 0, CIZTARMO_NO_PLACE, length);
    write_with(line, count, length - 1 - chance((uint32_t)length), plain, 0);
    check_answer(line, CIZTARMO_BUFFER_TOO_SMALL, CIZTARMO_NO_PLACE, length);
    ciztarmo_write_values(values, count, NULL, 0, answer);
    check_answer(line, CIZTARMO_BUFFER_TOO_SMALL, CIZTARMO_NO_PLACE, length);
}

/* What `held` leaves: the fault's number, or the last of its own. */
static uint64_t last_number(enum fault fault)
{
    if (fault == NONE)
        return CIZTARMO_BUFFER_TOO_SMALL;
    return fault == TWICE ? CIZTARMO_NAMES_OUT_OF_ORDER : CIZTARMO_INVALID_NAME;
}

static void test_lists(void)
{
    for (int i = 0; i < 400; i++) {
        const size_t count = 2 + chance(20);
        const enum fault fault = (enum fault)chance(FAULTS);
        make(count, chance(8) ? 12 : 255);
        const uint64_t place = spoil(fault, count);
        held(__LINE__, count, place);
        CHECK(answer[CIZTARMO_NUMBER] == last_number(fault));
        /* In order they are written as they stand. */
        if (fault == NONE) {
            memcpy(values, sorted, count * sizeof values[0]);
            held(__LINE__, count, CIZTARMO_NO_PLACE);
        }
    }
}

/* A layout without types, of which every asked name is unknown. */
static const uint8_t no_types[] = {4, 0, 0, 0, 160, 0, 0, 0};

/* Every byte in a name; 0 ends it. */
static void test_bytes(void)
{
    for (int byte = 1; byte < 256; byte++) {
        make(2, 12);
        sprintf(names[1], "a%cc", byte);
        held(__LINE__, 2, byte < 0x20 || byte > 0x7E ? 1 : CIZTARMO_NO_PLACE);
    }
}

/* The edges of UTF-8, and what lies behind them. */
static const char *const good[] = {"\xC2\x80", "\xC2\x9F", "\xC2\xA0", "\xC3\xA9", "\xDF\xBF", "\xE0\xA0\x80", "\xE2\x82\xAC",
                                   "\xEC\xBF\xBF", "\xED\x9F\xBF", "\xEE\x80\x80", "\xEF\xBB\xBF", "\xEF\xBF\xBE", "\xEF\xBF\xBF",
                                   "\xF0\x90\x80\x80", "\xF0\x9F\x9A\x8C", "\xF4\x8F\xBF\xBF"};
static const char *const bad[] = {"\x1F", "\x7F", "\x80", "\xBF", "\xC0\x80", "\xC0\xAF", "\xC1\xBF", "\xC2", "\xC2\x7F", "\xC2\xC0",
                                  "\xC3\x28", "\xE0\x80\x80", "\xE0\x9F\xBF", "\xE2\x82", "\xE2\x82\x28", "\xE2\x82\xC0",
                                  "\xED\xA0\x80", "\xED\xAF\xBF", "\xED\xB0\x80", "\xED\xBF\xBF", "\xF0\x80\x80\x80",
                                  "\xF0\x8F\xBF\xBF", "\xF0\x9F\x9A", "\xF0\x9F\x9A\x28", "\xF4\x90\x80\x80", "\xF5\x80\x80\x80",
                                  "\xF8\x88\x80\x80\x80", "\xFE", "\xFF", "\xED\xA0\xBD\xED\xBA\x8C", "\xC3\xA9\x80"};

static void test_texts(void)
{
    static const char *const around[] = {"", "a", "\xC3\xA9"};
    for (size_t a = 0; a < 9; a++) {
        for (size_t i = 0; i < sizeof good / sizeof good[0]; i++) {
            make(2, 12);
            sprintf(names[1], "%s%s%s", around[a / 3], good[i], around[a % 3]);
            held(__LINE__, 2, CIZTARMO_NO_PLACE);
            CHECK(answer[CIZTARMO_NUMBER] == CIZTARMO_BUFFER_TOO_SMALL);
        }
        for (size_t i = 0; i < sizeof bad / sizeof bad[0]; i++) {
            make(2, 12);
            sprintf(names[1], "%s%s%s", around[a / 3], bad[i], around[a % 3]);
            held(__LINE__, 2, 1);
            CHECK(answer[CIZTARMO_NUMBER] == CIZTARMO_INVALID_NAME);
        }
    }
}

/* Names of up to four bytes, each at the edge of a range. */
static void test_short_names(void)
{
    static const uint8_t edges[] = {'a',  0x7F, 0x80, 0x8F, 0x90, 0x9F, 0xA0, 0xBF, 0xC1, 0xC2, 0xDF, 0xE0,
                                    0xE1, 0xEC, 0xED, 0xEE, 0xEF, 0xF0, 0xF1, 0xF3, 0xF4, 0xF5, 0xFF};
    const size_t many = sizeof edges;
    make(1, 12);
    for (size_t n = 0; n < many * many * many * many; n++) {
        char *const name = names[0];
        name[0] = (char)edges[n / (many * many * many)];
        name[1] = (char)edges[n / (many * many) % many];
        name[2] = (char)edges[n / many % many];
        name[3] = (char)edges[n % many];
        name[4] = 0;
        const size_t length = write_plainly(1);
        ciztarmo_length_of(no_types, sizeof no_types, NULL, 0, plain, length, 0, answer);
        const uint64_t read = answer[CIZTARMO_NUMBER];
        ciztarmo_write_values(values, 1, NULL, 0, answer);
        check(read == (answer[CIZTARMO_NUMBER] == CIZTARMO_INVALID_NAME ? CIZTARMO_INVALID_NAME : CIZTARMO_UNKNOWN_TYPE),
              "the reader and the writer take the same names", __LINE__);
    }
}

/* The limits: names of 0 and 255 bytes, 512 values and one more, 65,536 bytes and one more. */
static void test_limits(void)
{
    make(2, 12);
    values[1].name = "";
    held(__LINE__, 2, CIZTARMO_NO_PLACE);
    memset(names[0], 'n', 255);
    names[0][255] = 0;
    held(__LINE__, 2, CIZTARMO_NO_PLACE);
    CHECK(answer[CIZTARMO_VALUE] == 8 + 2 * 10 + 255);
    make(513, 12);
    held(__LINE__, 512, CIZTARMO_NO_PLACE);
    CHECK(answer[CIZTARMO_NUMBER] == CIZTARMO_BUFFER_TOO_SMALL);
    held(__LINE__, 513, CIZTARMO_NO_PLACE);
    CHECK(answer[CIZTARMO_NUMBER] == CIZTARMO_ABOVE_LIMIT);
    ciztarmo_write_values(NULL, 513, NULL, 0, answer);
    check_answer(__LINE__, CIZTARMO_ABOVE_LIMIT, CIZTARMO_NO_PLACE, 0);
    /* 512 * (10 + 118) bytes are 65,536; the head has 8. */
    for (int i = 0; i < 512; i++)
        sprintf(names[i], "%03d%0*d", 511 - i, 115 - (i < 8), 0);
    held(__LINE__, 512, CIZTARMO_NO_PLACE);
    CHECK(answer[CIZTARMO_VALUE] == 65536 && answer[CIZTARMO_NUMBER] == CIZTARMO_BUFFER_TOO_SMALL);
    strcat(names[300], "0");
    held(__LINE__, 512, CIZTARMO_NO_PLACE);
    CHECK(answer[CIZTARMO_VALUE] == 65537 && answer[CIZTARMO_NUMBER] == CIZTARMO_INPUT_TOO_LONG);
}

static void test_empty(void)
{
    static const uint8_t none[] = {4, 0, 0, 0, 192, 0, 0, 0};
    uint8_t out[sizeof none];
    ciztarmo_write_values(NULL, 0, out, sizeof out, answer);
    check_answer(__LINE__, 0, CIZTARMO_NO_PLACE, sizeof none);
    CHECK(memcmp(out, none, sizeof none) == 0);
    make(3, 12);
    values[2].name = NULL;
    write_with(__LINE__, 3, 100, plain, 0);
    check_answer(__LINE__, CIZTARMO_INVALID_NAME, 2, 0);
}

int main(void)
{
    test_lists();
    test_bytes();
    test_texts();
    test_short_names();
    test_limits();
    test_empty();
    if (failures != 0) {
        fprintf(stderr, "%lu of %lu checks failed\n", failures, checks);
        return 1;
    }
    printf("%lu\n", checks);
    return 0;
}
