/* Blocks of document 01 as the mutator sees them: where parts stand, and small new blocks. */
#ifndef ATTACK_BLOCKS_H
#define ATTACK_BLOCKS_H

#include "attack.h"

/* What a spot is. Lower case letters as in the table of kinds in blocks.c. */
enum spot_is {
    SPOT_BLOCK = 'B',       /* a block, from its length to its end */
    SPOT_OPT_BLOCK = 'D',   /* a flag and, if it is 1, a block */
    SPOT_NAME = 'n',        /* a name with its length */
    SPOT_NUMBER = '8',      /* 8 bytes */
    SPOT_FLAG = 'f',        /* 1 byte */
    SPOT_CODE = 'c',        /* a literal's code and number */
    SPOT_SIZE = 's',        /* flag 0 and a number, or flag 1 */
    SPOT_OPT_NUMBER = 'o',  /* flag 1 and a number, or flag 0 */
    SPOT_OPT_NAME = 'p',    /* flag 1 and a name, or flag 0 */
    SPOT_LIST = 'L',        /* a count and blocks */
    SPOT_NAMES = 'N',       /* a count and names */
    SPOT_PAIRS = 'V',       /* a count, then a name and a number each */
    SPOT_PAIR = 'v'         /* one such pair */
};

#define NO_SPOT (-1)
#define MOST_SPOTS 6000

struct spot {
    uint8_t is;
    uint16_t kind;    /* of a block */
    uint32_t at, end; /* in the part */
    int block;        /* the spot of the block around it */
    int list;         /* the spot of the list that it is an entry of, or NO_SPOT */
};

/* A part with its spots; the bytes lie in `bytes`, which has room for ATTACK_PART. */
struct part_view {
    uint8_t *bytes;
    size_t len;
    int spots;
    struct spot spot[MOST_SPOTS];
};

/* blocks.c */
void find_spots(struct part_view *part);
int family(uint16_t kind);
const char *parts_of(uint16_t kind);

/* Puts `len` bytes in the place of those from `at` to `end`, and changes the lengths of the block and those around it. */
int splice(struct part_view *part, int block, size_t at, size_t end, const uint8_t *bytes, size_t len);

/* fresh.c: numbers drawn, names and new blocks. */
uint64_t draw(uint64_t below);
void seed_draw(uint64_t seed);
uint64_t draw_number(void);

struct names {
    int many;
    struct attack_bytes name[256];
};

void gather_names(struct names *names, const struct part_view *part);

/* Writes to `out`, which has room for FRESH bytes, and gives the length. */
#define FRESH 4096
size_t fresh_name(const struct names *names, uint8_t *out);
size_t fresh_block(uint16_t kind, const struct names *names, int depth, uint8_t *out);
uint16_t kind_like(uint16_t kind);
uint16_t entry_kind(uint16_t kind);

#endif
