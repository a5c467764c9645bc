/*
 * How long is the next record? Builds the layout of the type Trip of document 01 once, then asks for a record's length.
 *
 *     cc -std=c99 example.c ciztarmo.c values.c -L "$(../archive)" -lciztarmo -o example && ./example
 *
 * or, where it is installed (../install), `cc -std=c99 example.c $(pkg-config --cflags --libs ciztarmo) -o example`.
 *
 * Trip has one byte n and then n legs of 4 bytes each; its layout asks for the value of legs.n.
 */
#include "ciztarmo.h"

#include <stdio.h>

/* Too large for some stacks. */
static uint8_t layout[CIZTARMO_MAX_INPUT];

/* The fare office's type set, as in examples/trip: a block 36 with one struct. */
static const uint8_t set[] = {
    0xc9, 0, 0, 0, 36, 0, 1, 0,                                            /* set: 1 type */
    0xc1, 0, 0, 0, 2, 0, 4, 0, 'T', 'r', 'i', 'p',                         /* struct Trip */
    1, 1, 0, 0, 0, 0, 0, 0, 0,                                             /* of variable size, alignment 1 */
    0x15, 0, 0, 0, 32, 0, 1, 0,                                            /* references: 1 owner */
    0x0d, 0, 0, 0, 37, 0, 4, 0, 'l', 'e', 'g', 's', 1, 0, 1, 0, 'n',       /* owner legs, path n */
    2, 0,                                                                  /* 2 fields */
    0x31, 0, 0, 0, 33, 0, 1, 0, 'n', 1, 0, 0, 0, 0, 0, 0, 0, 0,            /* field n at offset 0 */
    0x1f, 0, 0, 0, 1, 0, 2, 0, 'u', '8', 0, 1, 0, 0, 0, 0, 0, 0, 0,        /* primitive of 1 byte */
    1, 0, 0, 0, 0, 0, 0, 0, 4, 0, 0, 0, 32, 0, 0, 0,                       /* alignment 1, no references */
    0x5c, 0, 0, 0, 33, 0, 4, 0, 'l', 'e', 'g', 's', 0,                     /* field legs without offset */
    0x4f, 0, 0, 0, 5, 0, 10, 0, 'T', 'r', 'i', 'p', ':', ':', 'l', 'e', 'g', 's', /* array */
    1, 1, 0, 0, 0, 0, 0, 0, 0, 4, 0, 0, 0, 32, 0, 0, 0, 0,                 /* variable, alignment 1, not jagged */
    0x20, 0, 0, 0, 1, 0, 3, 0, 'l', 'e', 'g', 0, 4, 0, 0, 0, 0, 0, 0, 0,   /* elements of 4 bytes */
    1, 0, 0, 0, 0, 0, 0, 0, 4, 0, 0, 0, 32, 0, 0, 0,                       /* alignment 1, no references */
    7, 0, 0, 0, 65, 0, 1, 0, 1, 0, 'n',                                    /* of which there are n */
};

/* What the validator read so far. */
static const struct ciztarmo_value read_so_far[] = {{"legs.n", 3}};

static int refused(const char *what, const uint64_t answer[4])
{
    const uint64_t number = answer[CIZTARMO_NUMBER];
    if (number == CIZTARMO_ACCEPTED)
        return 0;
    fprintf(stderr, "%s: %s (%llu): %s\n", what, ciztarmo_refusal_name(number), (unsigned long long)number,
            ciztarmo_refusal_sentence(number));
    return 1;
}

int main(void)
{
    static const uint8_t name[] = {'T', 'r', 'i', 'p'};
    const uint64_t bytes_left = 40; /* in the buffer that the record is read from */
    uint64_t answer[CIZTARMO_ANSWER_WORDS];
    uint8_t values[64];

    ciztarmo_layout_of(set, sizeof set, layout, sizeof layout, answer);
    if (refused("the set", answer))
        return 1;
    const size_t layout_len = (size_t)answer[CIZTARMO_VALUE];

    ciztarmo_write_values(read_so_far, sizeof read_so_far / sizeof read_so_far[0], values, sizeof values, answer);
    if (refused("the values", answer))
        return 1;
    const size_t values_len = (size_t)answer[CIZTARMO_VALUE];

    ciztarmo_length_of(layout, layout_len, name, sizeof name, values, values_len, bytes_left, answer);
    if (refused("the record", answer))
        return 1;
    printf("%llu\n", (unsigned long long)answer[CIZTARMO_VALUE]);
    return 0;
}
