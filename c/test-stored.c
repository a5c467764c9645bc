/*
 * Every call of the stored list, judge/vectors/answers.bin (judge/vectors/README.md says how it was made), in C: for a processor for
 * which there is a C compiler and an emulator, and perhaps no more. Argument: the file.
 *
 * Each call has the answer of the list; a build leaves the list's layout, or zeros, and the bytes behind as they were; words are zero
 * afterwards. Where there are enough words, the call that is lent none leaves the same.
 *
 * Prints the number of checks; a check that fails is told with the place of the record, and the status is 1.
 */
#include "ciztarmo.h"

#include <stdio.h>
#include <stdlib.h>
#include <string.h>

#define DIRTY 0xA5
#define SPARE 64

static unsigned long checks, failures, records[5];
static size_t record_at;

static void check(int good, const char *what)
{
    checks++;
    if (good)
        return;
    failures++;
    fprintf(stderr, "answers.bin, byte %lu: not so: %s\n", (unsigned long)record_at, what);
}

struct bytes {
    const uint8_t *at;
    size_t len;
};

/* Takes bytes from the front; where they are not there the file is no list, and there is nothing to test. */
static struct bytes take(struct bytes *from, size_t len)
{
    const struct bytes taken = {from->at, len};
    if (len > from->len) {
        fprintf(stderr, "answers.bin ends inside the record at byte %lu\n", (unsigned long)record_at);
        exit(2);
    }
    from->at += len;
    from->len -= len;
    return taken;
}

static uint64_t number(struct bytes *from, size_t size)
{
    const struct bytes taken = take(from, size);
    uint64_t n = 0;
    for (size_t i = size; i > 0; i--)
        n = n << 8 | taken.at[i - 1];
    return n;
}

static struct bytes part(struct bytes *from)
{
    return take(from, (size_t)number(from, 4));
}

/* An answer stands in the list as number, place, offset and value of 1, 2, 4 and 8 bytes. */
static void answer_in(struct bytes *from, uint64_t want[4])
{
    want[CIZTARMO_NUMBER] = number(from, 1);
    want[CIZTARMO_PLACE] = number(from, 2);
    want[CIZTARMO_OFFSET] = number(from, 4);
    want[CIZTARMO_VALUE] = number(from, 8);
}

/* What a record lends, no longer than it is lent, so that the sanitizer sees an access outside; out has SPARE bytes behind it. */
static uint64_t *words;
static uint8_t *out;

static void *made(void *old, size_t len)
{
    void *bytes = malloc(len == 0 ? 1 : len);
    free(old);
    if (bytes == NULL) {
        fprintf(stderr, "there is no memory\n");
        exit(2);
    }
    memset(bytes, DIRTY, len);
    return bytes;
}

static void dirty(size_t many)
{
    words = (uint64_t *)made(words, many * sizeof *words);
}

static void check_words(size_t many)
{
    size_t i = 0;
    while (i < many && words[i] == 0)
        i++;
    check(i == many, "the words are zero");
}

static void check_out(const uint64_t got[4], struct bytes layout, size_t room)
{
    const size_t written = got[CIZTARMO_NUMBER] == 0 ? layout.len : room;
    size_t i = written;
    while (i < room + SPARE && out[i] == DIRTY)
        i++;
    check(i == room + SPARE, "bytes behind stay");
    if (got[CIZTARMO_NUMBER] == 0) {
        check(memcmp(out, layout.at, layout.len) == 0, "the layout is the list's");
        return;
    }
    for (i = 0; i < room && out[i] == 0;)
        i++;
    check(i == room, "a refused build leaves zeros");
}

static void build(struct bytes *body)
{
    const size_t many = (size_t)number(body, 4), room = (size_t)number(body, 4);
    const struct bytes set = part(body);
    uint64_t want[4], got[4];
    answer_in(body, want);
    const struct bytes layout = part(body);
    /* The list has 0 as the value of an accepted build. */
    if (want[CIZTARMO_NUMBER] == 0)
        want[CIZTARMO_VALUE] = layout.len;
    for (int lent = many >= CIZTARMO_WORDS ? 0 : 1; lent < 2; lent++) {
        dirty(many);
        out = (uint8_t *)made(out, room + SPARE);
        if (lent)
            ciztarmo_build_set(words, many, set.at, set.len, out, room, got);
        else
            ciztarmo_layout_of(set.at, set.len, out, room, got);
        check(memcmp(got, want, sizeof got) == 0, "the build has the list's answer");
        check_out(got, layout, room);
        if (lent)
            check_words(many);
    }
}

static void validate(struct bytes *body)
{
    const size_t many = (size_t)number(body, 4);
    const uint64_t len = number(body, 8);
    const struct bytes layout = part(body), name = part(body), values = part(body);
    uint64_t want[4], got[4];
    answer_in(body, want);
    dirty(many);
    ciztarmo_validate(words, many, layout.at, layout.len, name.at, name.len, values.at, values.len, len, got);
    check(memcmp(got, want, sizeof got) == 0, "the validation has the list's answer");
    check_words(many);
    if (many < CIZTARMO_WORDS)
        return;
    ciztarmo_length_of(layout.at, layout.len, name.at, name.len, values.at, values.len, len, got);
    check(memcmp(got, want, sizeof got) == 0, "it has so with no words lent");
}

static void validate_run(struct bytes *body)
{
    const size_t many = (size_t)number(body, 4);
    const struct bytes layout = part(body), run = part(body);
    uint64_t want[4], got[4], first[4];
    answer_in(body, want);
    dirty(many);
    ciztarmo_validate_run(words, many, layout.at, layout.len, run.at, run.len, got);
    check(memcmp(got, want, sizeof got) == 0, "the run has the list's answer");
    check_words(many);
    /* Where no bytes follow its block it is one run of many. */
    uint64_t two[8];
    if (ciztarmo_validate_runs(words, many, layout.at, layout.len, run.at, run.len, two, 8) == 1) {
        memcpy(first, two, sizeof first);
        check(memcmp(first, want, sizeof first) == 0, "it has so among many");
    }
    if (many < CIZTARMO_WORDS)
        return;
    ciztarmo_length_of_run(layout.at, layout.len, run.at, run.len, got);
    check(memcmp(got, want, sizeof got) == 0, "it has so with no words lent");
}

static void each(struct bytes list)
{
    const size_t all = list.len;
    while (list.len > 0) {
        record_at = all - list.len;
        const unsigned kind = (unsigned)number(&list, 2) & 0xFF;
        struct bytes body = part(&list);
        if (kind == 1)
            build(&body);
        else if (kind == 2)
            validate(&body);
        else if (kind == 4)
            validate_run(&body);
        else if (kind != 3) { /* a run of the program lengths */
            check(0, "the kind is known");
            return;
        }
        records[kind]++;
        check(kind == 3 || body.len == 0, "the record is used up");
    }
}

static struct bytes read_file(const char *path)
{
    struct bytes none = {NULL, 0};
    FILE *f = fopen(path, "rb");
    long len;
    if (f == NULL || fseek(f, 0, SEEK_END) != 0 || (len = ftell(f)) < 0 || fseek(f, 0, SEEK_SET) != 0) {
        perror(path);
        return none;
    }
    uint8_t *bytes = malloc((size_t)len + 1);
    if (bytes == NULL || fread(bytes, 1, (size_t)len, f) != (size_t)len) {
        fprintf(stderr, "%s: not read\n", path);
        free(bytes);
        bytes = NULL;
    }
    fclose(f);
    const struct bytes all = {bytes, bytes == NULL ? 0 : (size_t)len};
    return all;
}

int main(int argc, char **argv)
{
    if (argc != 2) {
        fprintf(stderr, "usage: test-stored judge/vectors/answers.bin\n");
        return 2;
    }
    const struct bytes list = read_file(argv[1]);
    if (list.at == NULL)
        return 2;
    each(list);
    record_at = list.len;
    check(records[1] == 2250 && records[2] == 2027 && records[3] == 321 && records[4] == 1877, "the list is whole");
    free(words);
    free(out);
    free((void *)(uintptr_t)list.at);
    if (failures != 0) {
        fprintf(stderr, "%lu of %lu checks failed\n", failures, checks);
        return 1;
    }
    printf("%lu\n", checks);
    return 0;
}
