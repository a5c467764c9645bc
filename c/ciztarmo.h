/*
 * Ciztarmo: record layouts for ticket validators, for C and C++ programs.
 *
 * Link libciztarmo.a (the command `archive` of the repository prints its folder). Of the C library it needs memset alone. Compile
 * ciztarmo.c too, as C or C++, if you want the names and sentences of refusals, and values.c if you want blocks of values written.
 * The command `install` puts all of it into one archive, with files for pkg-config and CMake. Byte forms, limits and refusals:
 * docs/FORMAT.md.
 *
 * What holds for every call:
 *
 * - A buffer is an address and a length. The address must be valid for that many elements, words must be aligned as a uint64_t is,
 *   and the buffers of one call (inputs, words, out, answer, answers) must not overlap. With length 0 nothing is read or written
 *   there, and the address may be NULL; `answer` is never NULL.
 * - Nothing is asked of what the buffers hold. Any bytes may be handed in as an input; words and out may hold anything before.
 * - Only words, answer or answers and, where a set is built, out are written. No call allocates, keeps an address, reads or writes
 *   a file, or has a state between calls: calls on different buffers may run in several threads.
 * - All words_len words are zero after the call, whatever it answers, also if they are too few.
 * - The first question that gets a "no" decides. 19 is asked first (are there 8,192 words? A call that is lent none has its own),
 *   then 1 of every input (is it at most 65,536 bytes long?), then reading: 2 to 6. In ciztarmo_validate_runs each run is an input,
 *   and is asked by itself.
 * - The answer is four words, see enum ciztarmo_answer; ciztarmo_validate_runs gives four for each run.
 * - Reading, building and evaluating recurse over nested blocks, of which at most 32 are open in a set and 256 in a layout;
 *   evaluating also over calls of types, of which at most 16 are open. So the stack is bounded, but not small. Measured by
 *   `c/test --stack` on hostile inputs: reading 13,839 bytes for a set and 106,919 for a layout of 256 open blocks; building 77,967
 *   with ciztarmo_layout_of and 64,719 with ciztarmo_build_set, where the first of 64 fields with padding is an array whose size is
 *   a sum of sums; validating 698,087, where a type of 254 nested nodes calls itself. On the type Trip of document 01
 *   ciztarmo_layout_of takes 21,647, ciztarmo_length_of 10,367 and ciztarmo_length_of_run 10,287 (of which 9,344 are words in which
 *   they may remember where values stand), ciztarmo_build_set 8,399, and no other call more than 3,023. A thread that validates with
 *   sets or layouts from somebody whom it does not trust should have CIZTARMO_STACK_BYTES left. The proofs say nothing of the stack.
 *
 * What the calls answer is proved (README.md, "What is proved"); what is said here of stack and NULL is measured and tested. The
 * archive is for x86-64, or for 64-bit Arm (`archive --target aarch64`; c/README.md says what that rests on).
 *
 * Licence: Apache-2.0.
 */
#ifndef CIZTARMO_H
#define CIZTARMO_H

#include <stddef.h>
#include <stdint.h>

#ifdef __cplusplus
extern "C" {
#endif

/*
 * The version of this header, a number each for comparisons and together as a text, "0.1.0". This is the one place where it stands:
 * the commands of the repository read it here, and a test holds the Rust crate's to it.
 */
#define CIZTARMO_VERSION_MAJOR 0
#define CIZTARMO_VERSION_MINOR 1
#define CIZTARMO_VERSION_PATCH 0
#define CIZTARMO_VERSION CIZTARMO_DOTTED(CIZTARMO_VERSION_MAJOR, CIZTARMO_VERSION_MINOR, CIZTARMO_VERSION_PATCH)
#define CIZTARMO_DOTTED(a, b, c) CIZTARMO_TEXT(a) "." CIZTARMO_TEXT(b) "." CIZTARMO_TEXT(c)
#define CIZTARMO_TEXT(a) #a

/* Working words that a call needs; with fewer it answers 19. More may be lent; they are cleared like the others. */
#define CIZTARMO_WORDS 8192

/* The longest input in bytes; a longer one gives 1. No built layout is longer, so an out of this size is never too small. */
#define CIZTARMO_MAX_INPUT 65536

/* The place that means: no type. */
#define CIZTARMO_NO_PLACE 65535

/* Bytes of stack that no call was seen to exceed on hostile inputs (c/test): any call, and the calls that read and build. */
#define CIZTARMO_STACK_BYTES 2097152
#define CIZTARMO_STACK_BYTES_READING 131072

/* What stands in the four words of an answer. */
enum ciztarmo_answer {
    CIZTARMO_NUMBER = 0, /* 0 if accepted, else the refusal, see enum ciztarmo_refusal */
    CIZTARMO_PLACE = 1,  /* the place, from 0, of a type in the set or layout; CIZTARMO_NO_PLACE if none */
    CIZTARMO_OFFSET = 2, /* where in the input a refused block, node or argument begins; else 0 */
    CIZTARMO_VALUE = 3,  /* the count or length of what is accepted; the tag for 22; the needed count for 25; else 0 */
    CIZTARMO_ANSWER_WORDS = 4
};

/*
 * The refusals. 10 to 15 and 20 to 25 have the names of the errors in the Rust that document 01 was written from, the others are
 * document 01's additions.
 *
 * The place is, for 10 to 17, the type that is built; for 21 to 24, 26 and 27, the type whose tree holds the node; for 25, the asked
 * type; else none. The offset is, for 2 to 6, the block's in the input that is refused; for 21 to 24, 26 and 27, the node's or the
 * missing argument's in the layout; else 0.
 */
enum ciztarmo_refusal {
    CIZTARMO_ACCEPTED = 0,
    /* reading */
    CIZTARMO_INPUT_TOO_LONG = 1,          /* an input is longer than 65,536 bytes */
    CIZTARMO_BLOCK_DOES_NOT_FIT = 2,      /* a block is not inside its parent, may not stand there or is not used up; bytes follow */
    CIZTARMO_INVALID_NAME = 3,            /* a name or text is above 255 bytes, is not UTF-8, or has a byte below 0x20 or 0x7F */
    CIZTARMO_ABOVE_LIMIT = 4,             /* a count, or the number of open blocks, is above its limit */
    CIZTARMO_INVALID_FLAG_OR_LITERAL = 5, /* a flag is neither 0 nor 1, or a literal is outside its type */
    CIZTARMO_NAMES_OUT_OF_ORDER = 6,      /* names do not ascend, or two types have one name */
    /* building */
    CIZTARMO_UNSUPPORTED_SIZE = 10,          /* a type of this shape has no variable size */
    CIZTARMO_MISSING_DYNAMIC_REFS = 11,      /* references that the layout needs are missing */
    CIZTARMO_MISSING_PARAMETER = 12,         /* a path names no parameter */
    CIZTARMO_UNSUPPORTED_ARRAY_ELEMENT = 13, /* an array has elements of an unsupported shape */
    CIZTARMO_UNSUPPORTED_EXPRESSION = 14,    /* an expression can't be turned into a node */
    CIZTARMO_MISSING_TYPE = 15,              /* a type that is referred to is not in the set */
    CIZTARMO_OFFSET_TOO_LARGE = 16,          /* a field's offset and size together reach 2^64 */
    CIZTARMO_TOO_MUCH_TO_WRITE = 17,         /* a written name or text above 255 bytes, or above 512 registry entries or arguments */
    CIZTARMO_LAYOUT_DOES_NOT_FIT = 18,       /* out, or 65,536 bytes, do not hold the layout, or it could not be read back */
    /* every call */
    CIZTARMO_TOO_FEW_WORDS = 19, /* fewer than 8,192 working words */
    /* validating */
    CIZTARMO_UNKNOWN_TYPE = 20,          /* the asked type, or a called one, is not in the layout */
    CIZTARMO_MISSING_IR_PARAMETER = 21,  /* a value is missing */
    CIZTARMO_INVALID_TAG_VALUE = 22,     /* a switch has no case for its tag */
    CIZTARMO_ARITHMETIC_OVERFLOW = 23,   /* below zero, a zero divisor, or a shift by 128 or more */
    CIZTARMO_UNSUPPORTED_OPERATION = 24, /* a sum over an array */
    CIZTARMO_BUFFER_TOO_SMALL = 25,      /* the count is above the buffer length */
    CIZTARMO_RESULT_TOO_LARGE = 26,      /* an exact result reaches 2^64 */
    CIZTARMO_TOO_MANY_CALLS = 27         /* a 17th call would be open */
};

/*
 * Reading: is the input a well-formed type set (block 36), layout (160), values (192) or run (193)? Answers 0, no place, 0 and 0 if
 * so. Refuses with 19, 1, 2, 3, 4, 5 and 6; the offset of 2 to 6 is that of the block in the input. The other calls read their
 * inputs themselves, so these are for telling what is wrong with an input, or which one.
 */
void ciztarmo_read_set(uint64_t *words, size_t words_len, const uint8_t *set, size_t set_len, uint64_t answer[4]);
void ciztarmo_read_layout(uint64_t *words, size_t words_len, const uint8_t *layout, size_t layout_len, uint64_t answer[4]);
void ciztarmo_read_values(uint64_t *words, size_t words_len, const uint8_t *values, size_t values_len, uint64_t answer[4]);
void ciztarmo_read_run(uint64_t *words, size_t words_len, const uint8_t *run, size_t run_len, uint64_t answer[4]);

/*
 * Building: the layout of every type of a set, in set order, written to out. Answers 0, no place, 0 and the layout's length; out
 * then begins with the layout, and its bytes behind the layout stay as they were. If it refuses, all out_len bytes of out are zero.
 * Refuses with 19, 1 to 6, then 10 to 17 at a type, then 18 if the layout does not fit. An out of CIZTARMO_MAX_INPUT bytes holds
 * every layout that can be built; a smaller one will do where the layout fits.
 *
 * It always ends. Its time grows with what is built, also where that is refused with 18 in the end because it is too long: a set of
 * 65,536 bytes can ask for some 65 MB. Of the sets that were made to take long (judge/README.md, "Inputs that take long") the slowest
 * took 0.19 s of the processor of docs/BENCH.md.
 */
void ciztarmo_build_set(uint64_t *words, size_t words_len, const uint8_t *set, size_t set_len, uint8_t *out, size_t out_len,
                        uint64_t answer[4]);

/*
 * The same with no words lent: the call has those that it needs on its stack. It answers what ciztarmo_build_set answers with
 * CIZTARMO_WORDS words, never 19, and takes less time on a small set, because no words have to be looked at.
 */
void ciztarmo_layout_of(const uint8_t *set, size_t set_len, uint8_t *out, size_t out_len, uint64_t answer[4]);

/*
 * Validating: how many bytes a record of the type `name` takes, by its layout, for the parameter values of a block 192 and a buffer
 * of len bytes. Answers 0, no place, 0 and the count, which is at most len. Refuses with 19, 1, then 2 to 6 for the layout, then
 * 2 to 6 for the values, then 20 to 24, 26 and 27 from the evaluation, then 25. The offset of 2 to 6 does not say which of the two
 * inputs it is in: ciztarmo_read_layout tells. `name` is the bare name, without a length before it or a zero behind it; neither 1
 * nor 3 is asked of it, and a name that no type has gives 20.
 *
 * It always ends, but its time is bounded by calls, not by bytes: a layout of 65,536 bytes in which each type calls the next k times
 * can take k^16 steps. Bound the time from outside where a layout comes from somebody you do not trust.
 */
void ciztarmo_validate(uint64_t *words, size_t words_len, const uint8_t *layout, size_t layout_len, const uint8_t *name,
                       size_t name_len, const uint8_t *values, size_t values_len, uint64_t len, uint64_t answer[4]);

/* The same with name, buffer length and values in one run block (193), which is read, and refused, in the place of the values. */
void ciztarmo_validate_run(uint64_t *words, size_t words_len, const uint8_t *layout, size_t layout_len, const uint8_t *run,
                           size_t run_len, uint64_t answer[4]);

/*
 * The same two with no words lent: they have those that they need on their stack, and answer what ciztarmo_validate and
 * ciztarmo_validate_run answer with CIZTARMO_WORDS words, never 19. For one record of a small layout they are the fastest calls: to
 * look at lent words, all of which must be zero afterwards, takes several times as long as the rest.
 */
void ciztarmo_length_of(const uint8_t *layout, size_t layout_len, const uint8_t *name, size_t name_len, const uint8_t *values,
                        size_t values_len, uint64_t len, uint64_t answer[4]);
void ciztarmo_length_of_run(const uint8_t *layout, size_t layout_len, const uint8_t *run, size_t run_len, uint64_t answer[4]);

/*
 * Validating many runs (blocks 193) over one layout, which is read once. The runs stand one behind the other in `runs`: each is as
 * long as its length field says, or as much of it as is there. Each is answered as ciztarmo_validate_run answers it alone, in four
 * words, one behind the other in `answers`. Returns how many runs have their answers there: from the first on, as many as there are
 * and as answers_len / 4 has room for. Words of `answers` behind them stay as they were. Together the runs may be longer than 65,536
 * bytes. The offset of 2 to 6 is counted from the start of the run, or of the layout. A refusal stands in an answer alone: with no
 * run, or no room, the call returns 0 even where there are too few words.
 */
size_t ciztarmo_validate_runs(uint64_t *words, size_t words_len, const uint8_t *layout, size_t layout_len, const uint8_t *runs,
                              size_t runs_len, uint64_t *answers, size_t answers_len);

/*
 * In values.c. Writes a block of values (192), as ciztarmo_validate and ciztarmo_length_of take it. The values may stand in any
 * order; they are written in the order of their names, byte by byte, and are neither changed nor kept. Names are UTF-8 texts that
 * end with a zero.
 *
 * Answers 0, no place, 0 and the block's length in bytes; out then begins with the block, and its bytes behind it stay as they were.
 * Where it refuses, nothing is written. Refuses with 4 (more than 512 values), 3 (a name is NULL, longer than 255 bytes, not UTF-8 as
 * RFC 3629 has it, or has a byte below 0x20 or the byte 0x7F), 6 (a name is given twice), 1 (the block would be longer than 65,536
 * bytes) and 25 (out does not hold the block), in this order. The place is, for 3 and 6, that of the value, from 0; the value is, for
 * 1 and 25, the length that the block would have. So an out_len of 0, with which out may be NULL, measures.
 *
 * Nothing is allocated. For names that ascend already the time grows with the count, else with its square.
 */
struct ciztarmo_value {
    const char *name;
    uint64_t number;
};
void ciztarmo_write_values(const struct ciztarmo_value *values, size_t count, uint8_t *out, size_t out_len, uint64_t answer[4]);

/*
 * In ciztarmo.c. The name of a refusal, such as "BufferTooSmall", and a sentence about it; "Accepted" for 0. For a number that no
 * call answers both give "?". The text is constant and never NULL.
 */
const char *ciztarmo_refusal_name(uint64_t number);
const char *ciztarmo_refusal_sentence(uint64_t number);

/* In ciztarmo.c. The version that ciztarmo.c was compiled with; a program's header is another if it differs from CIZTARMO_VERSION. */
const char *ciztarmo_version(void);

#ifdef __cplusplus
}
#endif

#endif
