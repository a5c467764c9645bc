/*
 * seeds FOLDER ANSWERS EXAMPLE BLOCK...: writes the inputs from which the fuzzer starts, one file each: the calls of the stored list
 * (form: judge/vectors/README.md), some of them damaged at every part, the example of document 01, inputs at the limits, and the
 * sets (*.set), layouts (*.layout) and layouts with a run behind them (*.run) that are named. Of the stored answers only the number is used, to tell good inputs from others;
 * the driver answers anew. seeds --blocks FOLDER BLOCK...: the named ones alone. In FOLDER they lie in `short` and `long`, which are
 * there.
 */
#include "damage.h"
#include "limits.h"

#include <stdio.h>
#include <stdlib.h>
#include <string.h>

#define MOST_BYTES (64 << 20)

/* The length up to which an input is tried among the short ones. */
#define SHORT 4096

static const char *folder;
static unsigned long written;

static void stop(const char *file, const char *what, size_t at)
{
    fprintf(stderr, "seeds: %s: %s at byte %lu\n", file, what, (unsigned long)at);
    exit(1);
}

static void write_seed(const struct attack_input *in)
{
    static uint8_t out[ATTACK_HEADER + 3 * ATTACK_PART];
    char path[4096];
    const size_t len = attack_write(in, out, sizeof out);
    snprintf(path, sizeof path, "%s/%s/seed-%05lu", folder, len > SHORT ? "long" : "short", written++);
    FILE *f = fopen(path, "wb");
    if (f == NULL || fwrite(out, 1, len, f) != len || fclose(f) != 0) {
        perror(path);
        exit(1);
    }
}

static struct attack_bytes read_file(const char *path)
{
    FILE *f = fopen(path, "rb");
    uint8_t *bytes = malloc(MOST_BYTES);
    if (f == NULL || bytes == NULL) {
        perror(path);
        exit(1);
    }
    const struct attack_bytes read = {bytes, fread(bytes, 1, MOST_BYTES, f)};
    fclose(f);
    return read;
}

/* The bytes of a record that are left. */
struct rest {
    const char *file;
    const uint8_t *start;
    struct attack_bytes bytes;
};

static struct attack_bytes take(struct rest *rest, uint64_t len)
{
    if (rest->bytes.len < len)
        stop(rest->file, "cut off", (size_t)(rest->bytes.at - rest->start));
    const struct attack_bytes taken = {rest->bytes.at, (size_t)len};
    rest->bytes.at += len;
    rest->bytes.len -= (size_t)len;
    return taken;
}

static uint64_t number(struct rest *rest, size_t bytes)
{
    return attack_get(take(rest, bytes).at, bytes);
}

/* A part: 4 bytes of length and that many bytes. What is longer than an input of the fuzzer can be is cut. */
static struct attack_bytes part(struct rest *rest)
{
    struct attack_bytes taken = take(rest, number(rest, 4));
    taken.len = taken.len < ATTACK_PART ? taken.len : ATTACK_PART;
    return taken;
}

static uint8_t words_choice(uint64_t words)
{
    return words == 8192 ? 0 : words == 8191 ? 252 : words == 0 ? 253 : words == 8193 ? 254 : 255;
}

/* The kinds of sets and layouts, of runs and of values that were damaged already. */
static uint8_t blocks_done[256], runs_done[256], values_done[256];

/* Runs one behind the other, the layout that they are put to, and the length of the first. */
struct runs {
    struct attack_bytes layout;
    size_t first, len;
    uint8_t at[ATTACK_PART];
};

static void add_run(struct runs *runs, struct attack_bytes run)
{
    if (run.len == 0 || run.len > sizeof runs->at - runs->len)
        return;
    memcpy(runs->at + runs->len, run.at, run.len);
    runs->len += run.len;
}

/* The calls to which a damaged input is put. */
static struct attack_input damaged;
static uint8_t damaged_calls[2];
static int damaged_second;

/* A damaged run, before a good one and behind it: by its length it may take some of the next one's bytes. */
static void damaged_runs(struct attack_bytes run)
{
    static struct runs runs;
    struct attack_input in = damaged;
    runs.len = 0;
    add_run(&runs, damaged.second);
    add_run(&runs, run);
    add_run(&runs, damaged.second);
    in.what = ATTACK_VALIDATE_RUNS;
    in.second = (struct attack_bytes){runs.at, runs.len};
    write_seed(&in);
}

static void take_damaged(const uint8_t *bytes, size_t len)
{
    struct attack_input in = damaged;
    const struct attack_bytes part = {bytes, len};
    for (int i = 0; i < 2; i++) {
        const int reads = damaged_calls[i] <= ATTACK_READ_RUN;
        in.what = damaged_calls[i];
        *(damaged_second && !reads ? &in.second : &in.first) = part;
        write_seed(&in);
        in = damaged;
    }
    if (damaged_calls[0] == ATTACK_READ_RUN)
        damaged_runs(part);
}

/* A good part of an input, damaged and put to two calls: the one that reads it, and another. */
static void damage(const struct attack_input *in, int second, uint8_t read, uint8_t other, uint8_t done[256])
{
    const struct attack_bytes part = second ? in->second : in->first;
    damaged = *in;
    damaged_second = second;
    damaged_calls[0] = read;
    damaged_calls[1] = other;
    if (part.len < 1000)
        damage_each(part.at, part.len, done, take_damaged);
}

static void build_record(struct rest *rest)
{
    struct attack_input in = {ATTACK_BUILD_SET, 0, 0, 0x5A, 0, 0, {NULL, 0}, {NULL, 0}, {NULL, 0}};
    in.words = words_choice(number(rest, 4));
    const uint64_t room = number(rest, 4);
    in.first = part(rest);
    const uint64_t refused = number(rest, 1);
    take(rest, 14);
    const size_t len = part(rest).len;
    if (room < 65536)
        in.room = refused == 0 && room == len ? 240 : room == 0 ? 243 : 241;
    write_seed(&in);
    if (refused == 0)
        damage(&in, 0, ATTACK_READ_SET, ATTACK_BUILD_SET, blocks_done);
}

/* The runs that are stored one behind the other for one layout. */
static struct runs stored;

/* All of them in one call, and the first once more. */
static void end_stored(void)
{
    if (stored.len == 0)
        return;
    add_run(&stored, (struct attack_bytes){stored.at, stored.first});
    const struct attack_bytes all = {stored.at, stored.len};
    const struct attack_input in = {ATTACK_VALIDATE_RUNS, 0, 0, 0x5A, 0, 0, stored.layout, {NULL, 0}, all};
    write_seed(&in);
    stored.len = 0;
}

static void add_stored(const struct attack_input *in)
{
    const struct attack_bytes old = stored.layout;
    if (stored.len > 0 && (in->first.len != old.len || memcmp(in->first.at, old.at, old.len) != 0))
        end_stored();
    if (stored.len == 0)
        stored.first = in->second.len;
    stored.layout = in->first;
    add_run(&stored, in->second);
}

/* Every third of them as a call without words. */
static void without_words(struct attack_input in)
{
    in.what = in.what == ATTACK_VALIDATE ? ATTACK_LENGTH_OF : ATTACK_LENGTH_OF_RUN;
    if (written % 3 == 0)
        write_seed(&in);
}

static void validate_record(struct rest *rest, int run)
{
    struct attack_input in = {ATTACK_VALIDATE, 0, 0, 0x5A, 0, 0, {NULL, 0}, {NULL, 0}, {NULL, 0}};
    in.words = words_choice(number(rest, 4));
    if (run)
        in.what = ATTACK_VALIDATE_RUN;
    else
        in.length = number(rest, 8);
    in.first = part(rest);
    if (!run)
        in.name = part(rest);
    in.second = part(rest);
    const uint64_t refused = number(rest, 1);
    take(rest, 14);
    if (in.name.len <= 65535) {
        write_seed(&in);
        without_words(in);
    }
    if (run)
        add_stored(&in);
    if (refused == 0 || refused >= 20) {
        damage(&in, 0, ATTACK_READ_LAYOUT, in.what, blocks_done);
        if (run)
            damage(&in, 1, ATTACK_READ_RUN, ATTACK_VALIDATE_RUN, runs_done);
        else
            damage(&in, 1, ATTACK_READ_VALUES, ATTACK_VALIDATE, values_done);
    }
    if (written % 8 != 0)
        return;
    /* Some as readings of one input. */
    in.what = ATTACK_READ_LAYOUT;
    write_seed(&in);
    in.what = run ? ATTACK_READ_RUN : ATTACK_READ_VALUES;
    in.first = in.second;
    write_seed(&in);
}

/* A set and what stands behind it, put to the set's layout in one call. */
static void together(struct attack_bytes set, struct attack_bytes runs)
{
    struct attack_input in = {ATTACK_BUILD_RUNS, 0, 0, 0x5A, 0, 0, set, {NULL, 0}, runs};
    if (runs.len <= ATTACK_PART)
        write_seed(&in);
}

/* Standard input of `lengths`: a set and runs, each put to the set's layout, and all together. */
static void blocks_of(struct attack_bytes input)
{
    struct attack_input in = {ATTACK_READ_SET, 0, 0, 0x5A, 0, 0, {NULL, 0}, {NULL, 0}, {NULL, 0}};
    while (input.len >= 4) {
        const uint64_t len = 4 + attack_get(input.at, 4);
        if (len > input.len || len > ATTACK_PART)
            return;
        const struct attack_bytes block = {input.at, (size_t)len};
        input.at += len;
        input.len -= (size_t)len;
        if (in.first.at == NULL) {
            in.first = block;
            together(block, input);
        } else {
            in.second = block;
        }
        write_seed(&in);
        in.what = ATTACK_BUILD_RUN;
    }
}

static void list(const char *file)
{
    struct rest rest = {file, NULL, read_file(file)};
    rest.start = rest.bytes.at;
    while (rest.bytes.len > 0) {
        const uint64_t kind = number(&rest, 1);
        number(&rest, 1);
        struct rest record = {file, rest.start, take(&rest, number(&rest, 4))};
        if (kind == 1)
            build_record(&record);
        else if (kind == 2 || kind == 4)
            validate_record(&record, kind == 4);
        else if (kind == 3)
            blocks_of(part(&record));
        else
            stop(file, "no record", (size_t)(record.bytes.at - rest.start));
    }
    end_stored();
}

static struct limit_bytes limit, values, runs;

static void limit_seed_of_length(enum attack_what what, uint64_t length)
{
    static const uint8_t asked[] = "T00000";
    struct attack_input in = {(uint8_t)what, 0, 0, 0x5A, 0, length, {limit.at, limit.len}, {asked, 6}, {values.at, values.len}};
    write_seed(&in);
}

static void limit_seed(enum attack_what what)
{
    limit_seed_of_length(what, 1 << 20);
}

/* Each limit, and one beyond it. A layout of 256 primitive types has 8 + 256 * (41 + the length of a name) bytes. */
static void limits(void)
{
    limit_values(&values, 512);
    for (int more = 0; more < 2; more++) {
        limit_types(&limit, 256 + more, 0, 0);
        limit_seed(ATTACK_BUILD_VALIDATE);
        limit_fields(&limit, 2, 64 + more, 64, 1);
        limit_seed(ATTACK_BUILD_VALIDATE);
        limit_fields(&limit, 3, 64, 64 + more, 1);
        limit_seed(ATTACK_BUILD_VALIDATE);
        limit_fields(&limit, 2, 2, 2, 32 + more);
        limit_seed(ATTACK_BUILD_VALIDATE);
        limit_depth_set(&limit, 32 + more);
        limit_seed(ATTACK_BUILD_VALIDATE);
        limit_depth_layout(&limit, 256 + more);
        limit_seed(ATTACK_VALIDATE);
        limit_calls(&limit, 17 + more, 0, 0);
        limit_seed(ATTACK_VALIDATE);
        limit_seed(ATTACK_LENGTH_OF);
        limit_calls(&limit, 3, 512 + more, 512);
        limit_seed(ATTACK_VALIDATE);
        limit_calls(&limit, 3, 512, 512 + more);
        limit_seed(ATTACK_VALIDATE);
        limit_values(&limit, 512 + more);
        limit_seed(ATTACK_READ_VALUES);
    }
    limit_values(&values, 0);
    for (int longer = 245; longer < 252; longer++) {
        limit_types(&limit, 256, 208, longer);
        limit_seed(ATTACK_BUILD_VALIDATE);
    }
}

/* A registry that is full or nearly so, at a field of each kind. */
static void registries(void)
{
    for (uint64_t kind = 3; kind <= 7; kind++) {
        for (int paths = 0; paths < 3; paths++) {
            limit_registry(&limit, 8, kind, paths);
            limit_seed(ATTACK_BUILD_VALIDATE);
            limit_registry(&limit, 7, kind, 62 + paths);
            limit_seed(ATTACK_BUILD_VALIDATE);
        }
    }
}

/* Names that are near 255 or 511 bytes when they are joined. */
static void long_names(void)
{
    static const struct limit_names names[] = {
        {"T", 0, 0, 120, 0, 1, 0},   {"T", 0, 120, 122, 0, 1, 0},  {"T", 0, 120, 123, 0, 1, 0},
        {"T", 0, 240, 10, 0, 1, 1},  {"T", 0, 130, 0, 0, 1, 1},    {"T", 0, 130, 0, 0, 1, 2},
        {"T", 0, 0, 0, 0, 1, 1},     {"T", 0, 0, 0, 170, 3, 0},    {"T", 0, 0, 0, 245, 2, 0},
        {"T", 0, 0, 0, 245, 4, 0},   {"T", 239, 0, 0, 0, 1, 0},    {"T", 244, 0, 0, 0, 1, 0},
        {"T", 249, 0, 0, 0, 2, 0},   {"T", 240, 0, 0, 0, 1, 1},    {"f::p", 0, 0, 0, 0, 1, 0},
        {"p00000::p", 0, 0, 0, 0, 1, 0}, {"f00000::p", 0, 0, 10, 10, 2, 0}};
    for (size_t i = 0; i < sizeof names / sizeof names[0]; i++)
        for (uint64_t kind = 3; kind <= 7; kind++)
            for (int root = 0; root < 2; root++) {
                limit_long(&limit, kind, root, &names[i]);
                limit_seed(ATTACK_BUILD_VALIDATE);
            }
}

/* Every operation of a node on every pair of numbers at which a rule changes. */
static void operations(void)
{
    static const uint64_t numbers[] = {0,   1,   2,   7,   8,          9,  63, 64, 65, 127,
                                       128, 129, UINT64_C(1) << 32, UINT64_C(1) << 63, UINT64_MAX - 7, UINT64_MAX};
    const size_t many = sizeof numbers / sizeof numbers[0];
    limit_values(&values, 0);
    for (uint64_t kind = 131; kind <= 143; kind++)
        for (size_t i = 0; i < many * many && kind != 132 && kind != 133; i++) {
            limit_operation(&limit, kind, numbers[i / many], numbers[i % many]);
            limit_seed_of_length(ATTACK_VALIDATE, UINT64_MAX);
        }
}

static void runs_seed(int words, int room, int pad)
{
    struct attack_input in = {ATTACK_VALIDATE_RUNS, 0, 0, 0x5A, 0, 0, {limit.at, limit.len}, {NULL, 0}, {runs.at, runs.len}};
    in.words = (uint8_t)words;
    in.room = (uint8_t)room;
    in.pad = (uint8_t)pad;
    write_seed(&in);
}

static void put_runs(int many)
{
    runs.len = 0;
    for (int i = 0; i < many; i++)
        limit_add_run(&runs, i % 3, 0, 0);
}

/* Runs without an end: a length that is cut off, is too small for a block, or reaches too far; the last two as long as may be. */
static void run_ends(void)
{
    static const uint64_t lens[] = {0, 1, 2, 3, 26, 27, UINT32_MAX, 65532, 65533};
    for (size_t i = 0; i < sizeof lens / sizeof lens[0]; i++) {
        put_runs(1);
        limit_add_bytes(&runs, lens[i], 4);
        runs_seed(0, 0, 0);
        limit_add_run(&runs, 1, 0, 0);
        runs_seed(0, 0, 0);
        put_runs(0);
        limit_add_bytes(&runs, lens[i], 4);
        runs_seed(0, 0, 252);
    }
    for (size_t cut = 1; cut < 8; cut++) {
        put_runs(2);
        runs.len -= cut;
        runs_seed(0, 0, 0);
        put_runs(2);
        limit_add_bytes(&runs, 193, cut);
        runs_seed(0, 0, 0);
    }
}

/*
 * Many runs in one call: no, one or some runs with every room, every number of words and parts of every length; as many as are
 * compared, and one more; one of 65,536 bytes, and one byte longer, before another; calls open in each, as many as may be and one
 * more.
 */
static void many_runs(void)
{
    limit_calls(&limit, 3, 0, 0);
    for (int many = 0; many < 4; many++) {
        put_runs(many);
        for (int choice = 240; choice < 248; choice++)
            runs_seed(0, choice, 0);
        for (int choice = 248; choice < 256; choice++)
            runs_seed(choice, 0, 0);
        for (int choice = 250; choice < 256; choice++)
            runs_seed(0, 0, choice);
    }
    for (int more = 0; more < 2; more++) {
        put_runs(ATTACK_RUNS + more);
        runs_seed(0, 0, 0);
        put_runs(1);
        limit_add_run(&runs, 512, 111, 482 + more);
        limit_add_run(&runs, 1, 0, 0);
        runs_seed(0, 0, 0);
    }
    run_ends();
    for (int more = 0; more < 2; more++) {
        limit_calls(&limit, 17 + more, 0, 0);
        put_runs(4);
        runs_seed(0, 0, 0);
    }
}

/*
 * Lists on both sides of the limits from which on names are found by an index of the list: 256 values, and a tree as long as one that asks
 * for 40. As values; and as runs, of which the second has a value less than is asked for, and the third is the first again.
 */
static void lists(void)
{
    for (int many = 255; many < 258; many++)
        for (int fields = 38; fields < 44; fields++) {
            const size_t bytes = 26 * (size_t)many;
            struct limit_list list = limit_list_of(many, bytes);
            limit_asked(&limit, list, fields);
            limit_listed(&values, list);
            limit_seed(ATTACK_VALIDATE);
            limit_seed(ATTACK_LENGTH_OF);
            runs.len = 0;
            for (int i = 0; i < 3; i++)
                limit_add_run(&runs, many - (i == 1), list.more, list.longer);
            runs_seed(0, 0, 0);
        }
}

static int ends_with(const char *text, const char *end)
{
    const size_t len = strlen(text), more = strlen(end);
    return len >= more && strcmp(text + len - more, end) == 0;
}

/* A layout and behind it a run of the type `L`: as a run, as one of three, and as values, with words that are lent and without. */
static void layout_and_run(const char *path, struct attack_bytes bytes)
{
    static const uint8_t calls[] = {ATTACK_VALIDATE_RUN, ATTACK_LENGTH_OF_RUN, ATTACK_VALIDATE, ATTACK_LENGTH_OF};
    static const size_t head = 4 + 2 + (2 + 1) + 8;
    static struct runs three;
    struct rest rest = {path, bytes.at, bytes};
    const struct attack_bytes layout = take(&rest, 4 + attack_get(bytes.at, 4)), run = rest.bytes;
    struct attack_input in = {0, 0, 0, 0x5A, 0, UINT64_MAX, layout, {(const uint8_t *)"L", 1}, run};
    if (run.len < head)
        stop(path, "no run", (size_t)(run.at - bytes.at));
    for (int i = 0; i < 4; i++) {
        in.what = calls[i];
        in.second = attack_takes_run(calls[i]) ? run : (struct attack_bytes){run.at + head, run.len - head};
        write_seed(&in);
    }
    three.len = 0;
    for (int i = 0; i < 3; i++)
        add_run(&three, run);
    in.what = ATTACK_VALIDATE_RUNS;
    in.second = (struct attack_bytes){three.at, three.len};
    write_seed(&in);
}

/* A set is read and built; a layout is read, with words that are lent and by a call that has its own. */
static void block(const char *path)
{
    const struct attack_bytes bytes = read_file(path);
    const int layout = ends_with(path, ".layout");
    static const uint8_t asked[] = "T00000";
    limit_values(&values, 0);
    struct attack_input in = {ATTACK_READ_SET, 0, 0, 0x5A, 0, 0, bytes, {asked, 6}, {values.at, values.len}};
    if (ends_with(path, ".run")) {
        layout_and_run(path, bytes);
        free((void *)bytes.at);
        return;
    }
    if (!layout && !ends_with(path, ".set"))
        stop(path, "neither .set, .layout nor .run", 0);
    in.what = layout ? ATTACK_READ_LAYOUT : ATTACK_READ_SET;
    write_seed(&in);
    in.what = layout ? ATTACK_LENGTH_OF : ATTACK_BUILD_SET;
    write_seed(&in);
    free((void *)bytes.at);
}

static void all(const char *answers, const char *example)
{
    list(answers);
    blocks_of(read_file(example));
    limits();
    registries();
    long_names();
    operations();
    many_runs();
    lists();
}

int main(int argc, char **argv)
{
    const int alone = argc > 1 && strcmp(argv[1], "--blocks") == 0;
    if (argc < (alone ? 3 : 4)) {
        fprintf(stderr, "usage: seeds FOLDER ANSWERS EXAMPLE BLOCK... | seeds --blocks FOLDER BLOCK...\n");
        return 2;
    }
    folder = argv[alone ? 2 : 1];
    if (!alone)
        all(argv[2], argv[3]);
    for (int i = alone ? 3 : 4; i < argc; i++)
        block(argv[i]);
    printf("%lu\n", written);
    return 0;
}
