/*
 * Measures the stack that the calls take: on hostile inputs (blocks nested as deep as the limits allow, a type that calls itself until
 * 16 calls are open, as many fields with padding as a struct may have, and in front of them the field that takes most) and on the
 * example of document 01. A call runs in a thread whose stack was painted before; what is no longer painted was used.
 *
 * stack EXAMPLE: prints how many checks passed. stack EXAMPLE --tell: each measure too, and for each call the most that was found. A
 * call that takes more than ciztarmo.h says, or an input that does not reach as deep as it should, is told with file and line, and the
 * status is 1. `c/test --stack` compiles and tells.
 */
#define _DEFAULT_SOURCE
#include "ciztarmo.h"

#include <pthread.h>
#include <stdio.h>
#include <stdlib.h>
#include <string.h>
#include <sys/mman.h>

#define STACK (16u << 20)
#define PAINT 0xA5

/* What no call may exceed on the example; ciztarmo.h has the figure that was found. */
#define EXAMPLE_BYTES 32768

static int checks, failures, tell;

static void check(int good, const char *what, int line)
{
    checks++;
    if (good)
        return;
    failures++;
    fprintf(stderr, "%s:%d: not so: %s\n", __FILE__, line, what);
}

#define CHECK(c) check((c) != 0, #c, __LINE__)

/* Bytes that are put together: a block is opened, filled and closed, which writes its length. */
struct bytes {
    size_t len;
    uint8_t at[CIZTARMO_MAX_INPUT];
};

static void put(struct bytes *b, uint64_t value, int bytes)
{
    for (; bytes > 0 && b->len < sizeof b->at; bytes--, value >>= 8)
        b->at[b->len++] = (uint8_t)value;
}

static void put_name(struct bytes *b, const char *name)
{
    put(b, strlen(name), 2);
    while (*name != 0)
        put(b, (uint8_t)*name++, 1);
}

static size_t open_block(struct bytes *b, int kind)
{
    const size_t at = b->len;
    put(b, 0, 4);
    put(b, (uint64_t)kind, 2);
    return at;
}

static void close_block(struct bytes *b, size_t at)
{
    const size_t end = b->len;
    b->len = at;
    put(b, end - at - 4, 4);
    b->len = end;
}

/* Types that add nothing but their number: a reader may keep more of many names than of a few. */
#define OTHERS 40

/* As many values as a block may have beside t. */
#define MANY_VALUES 511

/* How the nodes of a layout are nested. */
enum nesting { ALIGNED, ADDED_LEFT, ADDED_RIGHT, IN_DEFAULT, IN_CASE, NESTINGS };

static size_t open_node(struct bytes *b, int kind)
{
    const size_t at = open_block(b, kind);
    put(b, 1, 8);
    put(b, 0, 1);
    return at;
}

static void put_constant(struct bytes *b, uint64_t value)
{
    const size_t at = open_node(b, 129);
    put(b, value, 8);
    close_block(b, at);
}

/* A call of A, which hands on t so many times. */
static void put_call(struct bytes *b, int arguments)
{
    const size_t at = open_node(b, 133);
    put_name(b, "A");
    put(b, (uint64_t)arguments, 2);
    for (int i = 0; i < arguments; i++) {
        const size_t argument = open_block(b, 164);
        put_name(b, "t");
        put_name(b, "t");
        close_block(b, argument);
    }
    close_block(b, at);
}

static void put_nodes(struct bytes *b, enum nesting how, int more);

/* The one case of a switch by t, or none and the default. */
static void put_choice(struct bytes *b, enum nesting how, int more)
{
    put_name(b, "t");
    put(b, how == IN_CASE, 2);
    if (how == IN_CASE) {
        const size_t at = open_block(b, 163);
        put(b, 0, 8);
        put_nodes(b, how, more);
        put(b, 0, 2);
        close_block(b, at);
    }
    put(b, how == IN_DEFAULT, 1);
    if (how == IN_DEFAULT)
        put_nodes(b, how, more);
}

/* A node that holds another, and at last a call of its own type: so many blocks more are open together. An argument is one too. */
static void put_nodes(struct bytes *b, enum nesting how, int more)
{
    const int each = how == IN_CASE ? 2 : 1;
    const int arguments = how == ALIGNED ? 0 : 512;
    if (more < each + (arguments > 0)) {
        put_call(b, arguments);
        return;
    }
    const size_t at = open_node(b, how == ALIGNED ? 131 : how == ADDED_LEFT || how == ADDED_RIGHT ? 134 : 132);
    if (how == ALIGNED)
        put(b, 2, 8); /* by 2: one by 0 or 1 is passed over */
    if (how == ADDED_RIGHT)
        put_constant(b, 0);
    if (how == IN_DEFAULT || how == IN_CASE)
        put_choice(b, how, more - each);
    else
        put_nodes(b, how, more - each);
    if (how == ADDED_LEFT)
        put_constant(b, 0);
    close_block(b, at);
}

/* A layout of A and the others; the layout, the type and so many blocks are open together. */
static void make_layout(struct bytes *b, enum nesting how, int blocks)
{
    b->len = 0;
    const size_t layout = open_block(b, 160);
    put(b, 1 + OTHERS, 2);
    for (char i = 0; i <= OTHERS; i++) {
        const char type_name[] = {(char)('A' + i), 0};
        const size_t type = open_block(b, 161);
        put_name(b, type_name);
        put(b, 1, 8);
        if (i == 0)
            put_nodes(b, how, blocks - 1);
        else
            put_constant(b, 1);
        put(b, 0, 2);
        close_block(b, type);
    }
    close_block(b, layout);
}

/* Values, or a run of A with them: t is 0, and so many others stand behind it. With many, a call may remember where they stand. */
static void make_values(struct bytes *b, int in_run, int others)
{
    b->len = 0;
    const size_t at = in_run ? open_block(b, 193) : 0;
    if (in_run) {
        put_name(b, "A");
        put(b, 100, 8);
    }
    const size_t block = open_block(b, 192);
    put(b, 1 + (uint64_t)others, 2);
    put_name(b, "t");
    put(b, 0, 8);
    for (int i = 0; i < others; i++) {
        char other[16];
        snprintf(other, sizeof other, "u%03d", i);
        put_name(b, other);
        put(b, 0, 8);
    }
    close_block(b, block);
    if (in_run)
        close_block(b, at);
}

/* A type's head: variable size, or 1 byte; alignment 1; so many owners, of which the last has so many paths. */
static size_t open_owning(struct bytes *b, int kind, const char *name, int owners, int paths)
{
    const size_t at = open_block(b, kind);
    put_name(b, name);
    put(b, kind != 1, 1);
    if (kind == 1)
        put(b, 1, 8);
    put(b, 1, 8);
    const size_t references = open_block(b, 32);
    put(b, (uint64_t)owners, 2);
    for (int i = 0; i < owners; i++) {
        const char owner_name[] = {(char)('0' + i), 0};
        const size_t owner = open_block(b, 37);
        put_name(b, owner_name);
        put(b, i + 1 < owners ? 0 : (uint64_t)paths, 2);
        for (int k = 0; k < paths && i + 1 == owners; k++) {
            const char path[] = {(char)('0' + k), 0};
            put_name(b, path);
        }
        close_block(b, owner);
    }
    close_block(b, references);
    return at;
}

static size_t open_type(struct bytes *b, int kind, const char *name)
{
    return open_owning(b, kind, name, 0, 0);
}

/* A sum that holds another sum, and at last a literal: 1 + sums expressions are open together. */
static void put_sums(struct bytes *b, int sums)
{
    const size_t at = open_block(b, sums > 0 ? 68 : 64);
    if (sums > 0) {
        put_sums(b, sums - 1);
        put_sums(b, 0);
    } else {
        put(b, 0, 1);
        put(b, 2, 8);
    }
    close_block(b, at);
}

/* What the first field of a struct is, and so how deep a set is nested. */
enum first { ARRAYS, SUMS, TAG, STRUCTS, REFERENCE, FIRSTS };

static void put_arrays(struct bytes *b, int arrays, int sums)
{
    const size_t at = open_type(b, arrays > 0 ? 5 : 1, "a");
    if (arrays > 0) {
        put(b, 0, 1);
        put_arrays(b, arrays - 1, 0);
        put_sums(b, sums);
    }
    close_block(b, at);
}

/* A type in which so many blocks, an even number, are open together: structs, each the one field of the other. */
static void put_structs(struct bytes *b, int blocks)
{
    const size_t at = open_type(b, blocks > 2 ? 2 : 1, "a");
    if (blocks > 2) {
        put(b, 1, 2);
        const size_t field = open_block(b, 33);
        put_name(b, "a");
        put(b, 0, 1);
        put_structs(b, blocks - 2);
        close_block(b, field);
    }
    close_block(b, at);
}

/* The type of the first field; in it so many blocks are open together, if it is one that nests. */
static void put_first(struct bytes *b, enum first first, int blocks)
{
    size_t at;
    switch (first) {
    case ARRAYS:
        put_arrays(b, blocks - 2, 0);
        return;
    case SUMS:
        put_arrays(b, 1, blocks - 2);
        return;
    case STRUCTS:
        put_structs(b, blocks);
        return;
    case TAG:
        at = open_type(b, 4, "a");
        put_sums(b, blocks - 2);
        put(b, 0, 2);
        break;
    default:
        at = open_type(b, 7, "a");
        put_name(b, "B");
    }
    close_block(b, at);
}

/*
 * The struct A, of 64 fields that all have padding before them, then B with 64 owners, of which the last has 64 paths, and the others.
 * The set, A, its first field and so many blocks are open together.
 */
static void make_set(struct bytes *b, enum first first, int blocks)
{
    b->len = 0;
    const size_t set = open_block(b, 36);
    put(b, 1 + OTHERS, 2);
    const size_t type = open_owning(b, 2, "A", first == STRUCTS, first == STRUCTS);
    put(b, 64, 2);
    for (uint64_t i = 0; i < 64; i++) {
        const size_t field = open_block(b, 33);
        put_name(b, "0");
        put(b, 1, 1);
        put(b, 3 * i + 1, 8);
        if (i == 0)
            put_first(b, first, blocks);
        else
            put_arrays(b, 0, 0);
        close_block(b, field);
    }
    close_block(b, type);
    const size_t called = open_owning(b, 3, "B", 64, 64);
    put(b, 0, 2);
    close_block(b, called);
    for (char i = 2; i <= OTHERS; i++) {
        const char type_name[] = {(char)('A' + i), 0};
        close_block(b, open_type(b, 1, type_name));
    }
    close_block(b, set);
}

static uint64_t words[CIZTARMO_WORDS], answer[CIZTARMO_ANSWER_WORDS];
static uint8_t out[CIZTARMO_MAX_INPUT];
static struct bytes layout, set, values, run;
static const char *name = "A";

static void read_layout(void)
{
    ciztarmo_read_layout(words, CIZTARMO_WORDS, layout.at, layout.len, answer);
}

static void read_set(void)
{
    ciztarmo_read_set(words, CIZTARMO_WORDS, set.at, set.len, answer);
}

static void build(void)
{
    ciztarmo_build_set(words, CIZTARMO_WORDS, set.at, set.len, out, sizeof out, answer);
}

static void validate(void)
{
    ciztarmo_validate(words, CIZTARMO_WORDS, layout.at, layout.len, (const uint8_t *)name, strlen(name), values.at, values.len, 100, answer);
}

static void validate_run(void)
{
    ciztarmo_validate_run(words, CIZTARMO_WORDS, layout.at, layout.len, run.at, run.len, answer);
}

static void layout_of(void)
{
    ciztarmo_layout_of(set.at, set.len, out, sizeof out, answer);
}

static void length_of(void)
{
    ciztarmo_length_of(layout.at, layout.len, (const uint8_t *)name, strlen(name), values.at, values.len, 100, answer);
}

static void length_of_run(void)
{
    ciztarmo_length_of_run(layout.at, layout.len, run.at, run.len, answer);
}

static void validate_runs(void)
{
    ciztarmo_validate_runs(words, CIZTARMO_WORDS, layout.at, layout.len, run.at, run.len, answer, CIZTARMO_ANSWER_WORDS);
}

/* The calls, and the most stack that each took: on hostile inputs, and on the example. */
enum call { READ_SET, READ_LAYOUT, BUILD_SET, LAYOUT_OF, VALIDATE, VALIDATE_RUN, VALIDATE_RUNS, LENGTH_OF, LENGTH_OF_RUN, CALLS };

static struct {
    const char *name;
    void (*call)(void);
    size_t most[2];
} calls[CALLS] = {{"read_set", read_set, {0, 0}},
                  {"read_layout", read_layout, {0, 0}},
                  {"build_set", build, {0, 0}},
                  {"layout_of", layout_of, {0, 0}},
                  {"validate", validate, {0, 0}},
                  {"validate_run", validate_run, {0, 0}},
                  {"validate_runs", validate_runs, {0, 0}},
                  {"length_of", length_of, {0, 0}},
                  {"length_of_run", length_of_run, {0, 0}}};

static int on_example;

/* Where the stack stood before the call. */
static uintptr_t before;

static void *in_thread(void *call)
{
    volatile uint8_t here = 0;
    before = (uintptr_t)&here;
    (*(void (**)(void))call)();
    return NULL;
}

static size_t painted_and_called(void (*call)(void))
{
    pthread_attr_t attributes;
    pthread_t thread;
    uint8_t *stack = mmap(NULL, STACK, PROT_READ | PROT_WRITE, MAP_PRIVATE | MAP_ANONYMOUS, -1, 0);
    if (stack == MAP_FAILED) {
        perror("mmap");
        exit(2);
    }
    memset(stack, PAINT, STACK);
    memset(answer, PAINT, sizeof answer);
    pthread_attr_init(&attributes);
    if (pthread_attr_setstack(&attributes, stack, STACK) != 0 || pthread_create(&thread, &attributes, in_thread, &call) != 0 ||
        pthread_join(thread, NULL) != 0) {
        fprintf(stderr, "a thread could not be run\n");
        exit(2);
    }
    size_t unused = 0;
    while (unused < STACK && stack[unused] == PAINT)
        unused++;
    const size_t used = (size_t)(before - (uintptr_t)(stack + unused));
    munmap(stack, STACK);
    return used;
}

/* The bytes of stack that a call takes. */
static size_t measure(const char *what, enum call which)
{
    const size_t used = painted_and_called(calls[which].call);
    if (used > calls[which].most[on_example])
        calls[which].most[on_example] = used;
    if (tell)
        printf("%s, %s: %lu bytes, answer %llu\n", calls[which].name, what, (unsigned long)used,
               (unsigned long long)answer[CIZTARMO_NUMBER]);
    return used;
}

static void nested_layouts(void)
{
    static const char *const whats[NESTINGS] = {"AlignUp in each other", "sums, the left one nested", "sums, the right one nested",
                                                "switches by their default", "switches by their case"};
    for (int how = 0; how < NESTINGS; how++) {
        make_layout(&layout, (enum nesting)how, 254);
        CHECK(measure(whats[how], READ_LAYOUT) <= CIZTARMO_STACK_BYTES_READING);
        CHECK(answer[CIZTARMO_NUMBER] == CIZTARMO_ACCEPTED);
        for (int which = VALIDATE; which < CALLS; which++) {
            CHECK(measure(whats[how], (enum call)which) <= CIZTARMO_STACK_BYTES);
            CHECK(answer[CIZTARMO_NUMBER] == CIZTARMO_TOO_MANY_CALLS);
        }
        /* Refused at its end: the last type says that it has a parameter. A reader may then read again, in another way. */
        layout.at[layout.len - 2] = 1;
        CHECK(measure(whats[how], READ_LAYOUT) <= CIZTARMO_STACK_BYTES_READING);
        CHECK(answer[CIZTARMO_NUMBER] == CIZTARMO_BLOCK_DOES_NOT_FIT);
        /* One block more is one too many, so nothing deeper can come. */
        make_layout(&layout, (enum nesting)how, how == IN_CASE ? 256 : 255);
        CHECK(measure(whats[how], READ_LAYOUT) <= CIZTARMO_STACK_BYTES_READING);
        CHECK(answer[CIZTARMO_NUMBER] == CIZTARMO_ABOVE_LIMIT);
    }
}

static void nested_sets(void)
{
    static const char *const whats[FIRSTS] = {"64 padded fields, arrays in each other", "64 padded fields, sums in a size",
                                              "64 padded fields, sums in a tag", "64 padded fields, structs in each other",
                                              "64 padded fields, a call with 64 owners and 64 paths"};
    for (int first = 0; first < FIRSTS; first++) {
        const int odd = first != STRUCTS;
        make_set(&set, (enum first)first, 28 + odd);
        for (int which = READ_SET; which <= LAYOUT_OF; which++) {
            if (which == READ_LAYOUT)
                continue;
            CHECK(measure(whats[first], (enum call)which) <= CIZTARMO_STACK_BYTES_READING);
            CHECK(answer[CIZTARMO_NUMBER] == CIZTARMO_ACCEPTED);
        }
        make_set(&set, (enum first)first, 30);
        CHECK(measure(whats[first], READ_SET) <= CIZTARMO_STACK_BYTES_READING);
        CHECK(answer[CIZTARMO_NUMBER] == (first == REFERENCE ? CIZTARMO_ACCEPTED : CIZTARMO_ABOVE_LIMIT));
    }
}

/* A block of the example, as long as its length says. */
static void take_block(FILE *f, struct bytes *b)
{
    const size_t head = fread(b->at, 1, 4, f);
    const size_t len = b->at[0] + 256u * b->at[1];
    b->len = 4 + len;
    if (head != 4 || b->len > sizeof b->at || fread(b->at + 4, 1, len, f) != len) {
        fprintf(stderr, "the example is cut off\n");
        exit(2);
    }
}

/* The set and the first run of the example. The run has the type's name, a length of 8 bytes and the values. */
static void example(const char *path)
{
    FILE *f = fopen(path, "rb");
    if (f == NULL) {
        perror(path);
        exit(2);
    }
    take_block(f, &set);
    take_block(f, &run);
    fclose(f);
    on_example = 1;
    name = "Trip";
    values.len = run.len - 20;
    memcpy(values.at, run.at + 20, values.len);
    for (int which = 0; which < CALLS; which++) {
        if (which == READ_LAYOUT || which == VALIDATE) {
            layout_of();
            layout.len = (size_t)answer[CIZTARMO_VALUE];
            memcpy(layout.at, out, layout.len);
        }
        CHECK(measure("the example", (enum call)which) <= EXAMPLE_BYTES);
        CHECK(answer[CIZTARMO_NUMBER] == CIZTARMO_ACCEPTED);
    }
}

int main(int argc, char **argv)
{
    tell = argc == 3 && strcmp(argv[2], "--tell") == 0;
    if (argc != 2 + tell) {
        fprintf(stderr, "usage: stack EXAMPLE [--tell]\n");
        return 2;
    }
    for (int others = 0; others <= MANY_VALUES; others += MANY_VALUES) {
        make_values(&values, 0, others);
        make_values(&run, 1, others);
        nested_layouts();
    }
    nested_sets();
    example(argv[1]);
    for (int which = 0; which < CALLS && tell; which++)
        printf("most: %s: %lu bytes, on the example %lu\n", calls[which].name, (unsigned long)calls[which].most[0],
               (unsigned long)calls[which].most[1]);
    if (failures != 0)
        return 1;
    printf("%d\n", checks);
    return 0;
}
