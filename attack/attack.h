/* What the parts of the attack share: the form of an input, a call with its expected answer, lent buffers, and counts. */
#ifndef ATTACK_H
#define ATTACK_H

#include <stddef.h>
#include <stdint.h>

/* The exported calls, and the three ways to build a set and validate over the layout that came out. As in driver/src/lib.rs. */
enum attack_what {
    ATTACK_READ_SET = 0,
    ATTACK_READ_LAYOUT = 1,
    ATTACK_READ_VALUES = 2,
    ATTACK_READ_RUN = 3,
    ATTACK_BUILD_SET = 4,
    ATTACK_VALIDATE = 5,
    ATTACK_VALIDATE_RUN = 6,
    ATTACK_VALIDATE_RUNS = 7,
    ATTACK_LENGTH_OF = 8,
    ATTACK_LENGTH_OF_RUN = 9,
    ATTACK_CALLS = 10,
    ATTACK_BUILD_VALIDATE = 10,
    ATTACK_BUILD_RUN = 11,
    ATTACK_BUILD_RUNS = 12,
    ATTACK_WHATS = 13
};

struct attack_bytes {
    const uint8_t *at;
    size_t len;
};

/*
 * An input of the fuzzer: a header of 20 bytes, then the parts. The first part is a set, layout, values or run, the second (for
 * validations) values, a run or runs.
 *
 *     0       what, modulo ATTACK_WHATS
 *     1       words: 0 to 247: 8,192; 248: 1; 249: 15; 250: 16; 251: 17; 252: 8,191; 253: 0; 254: 8,193; 255: 10,000;
 *             length_of and length_of_run take none
 *     2       room of the output: 0 to 239: 65,536 bytes; 240 to 255: near the layout's length, see room_of in attack.c;
 *             of the answers of validate_runs: 0 to 239: for 2 to 64 runs; 240 to 255: near what the runs need
 *     3       what words and output hold before the call: the low two bits choose a pattern
 *     4       lengthening: 0 to 249: none; 250 to 255: a part is filled with zeros up to or past 65,536, see lengthen in attack.c
 *     5       not used
 *     6..13   buffer length of a validation
 *     14..17  length of the first part, or as much as there is
 *     18..19  length of the name, or as much as there is; the second part is the rest
 */
#define ATTACK_HEADER 20

/* Longer parts are cut to this; it is above 65,536, so that question 1 is reached. */
#define ATTACK_PART 69632

/* There is room for the answers to about so many runs, because each is asked of the driver by itself. More may stand there. */
#define ATTACK_RUNS 64

struct attack_input {
    uint8_t what, words, room, dirty, pad;
    uint64_t length;
    struct attack_bytes first, name, second;
};

/* input.c. Parsing gives 0 where the header is cut off; writing gives 0 where there is no room. */
int attack_parse(const uint8_t *data, size_t size, struct attack_input *in);
size_t attack_write(const struct attack_input *in, uint8_t *out, size_t cap);
uint64_t attack_get(const uint8_t *at, size_t bytes);
void attack_put(uint8_t *at, uint64_t value, size_t bytes);

/* Whether the second part is a run or runs, and whether it is runs. */
int attack_takes_run(uint8_t what);
int attack_takes_runs(uint8_t what);

/*
 * One call, and what it must answer by the rules of document 01. Laid out as in driver/src/lib.rs. The room is that of the output
 * in bytes, or of the answers in words.
 */
struct attack_call {
    uint32_t what;
    uint64_t words, room, length;
    struct attack_bytes first, name, second;
};

enum attack_verdict {
    ATTACK_RULES_ONLY = 0, /* an added refusal decides, or a reading: the rules alone answer */
    ATTACK_CONFIRMED = 1,  /* the unchanged Rust gives the same answer */
    ATTACK_STOPPED = 2,    /* the rules' evaluation was ended after 200,000 steps: not compared */
    ATTACK_DIFFERS = 3     /* the rules and the Rust differ where they should not */
};

/* What is pointed to stays until the next call. */
struct attack_expected {
    const uint64_t *answers; /* four words each */
    size_t many;             /* 1, or in validate_runs as many as there are runs and room for */
    const uint8_t *layout;   /* of a build that is accepted */
    size_t layout_len;
    uint32_t verdict;
};

void attack_expect(const struct attack_call *call, struct attack_expected *out);

/*
 * lent.c: memory between two pages that trap, so that an access outside it ends the process even in code that is not instrumented.
 * What is lent for reading alone is mapped twice: `write` is for the attack, `lent` is read only.
 */
struct attack_lent {
    uint8_t *write;
    uint8_t *lent;
    size_t size;
};

void attack_lend(struct attack_lent *lent, size_t size, int read_only);

/* counts.c: what was done, and how much of the code was reached. */
extern struct attack_counts {
    uint64_t inputs, calls, runs, layout_of, confirmed, rules_only, stopped, differences;
    uint64_t by_call[ATTACK_CALLS], by_number[32];
} attack_counts;

extern const char *const attack_call_names[ATTACK_CALLS];

void attack_begin(void);
void attack_note_edges(void);
void attack_report(void);

#endif
