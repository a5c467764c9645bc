/* Finds the parts of blocks, also in inputs that are damaged: what stands before the damage is still found. */
#include "blocks.h"

#include <string.h>

#define HEAD "ns8B"
#define META "8p"

/* The parts of a kind, as letters of enum spot_is; NULL for a kind that document 01 does not have. */
const char *parts_of(uint16_t kind)
{
    static const char *const types[] = {HEAD, HEAD "L", HEAD "L", HEAD "BL", HEAD "fBB", HEAD "L", HEAD "n"};
    static const char *const type_parts[] = {"L", "noB", "n8B", "n8B", "L", "nN"};
    static const char *const nodes[] = {META, META "8", META "np", META "8B", META "nLD", META "nL"};
    static const char *const layouts[] = {"L", "n8BL", "npf", "8BL", "nn"};
    if (kind >= 1 && kind <= 7)
        return types[kind - 1];
    if (kind >= 32 && kind <= 37)
        return type_parts[kind - 32];
    if (kind >= 64 && kind <= 67)
        return kind == 64 ? "c" : kind == 65 ? "N" : "n";
    if (kind >= 68 && kind <= 91)
        return kind >= 79 && kind <= 82 ? "B" : "BB";
    if (kind >= 128 && kind <= 133)
        return nodes[kind - 128];
    if (kind >= 134 && kind <= 144)
        return kind == 144 ? META "Bnn" : META "BB";
    if (kind >= 160 && kind <= 164)
        return layouts[kind - 160];
    return kind == 192 ? "V" : kind == 193 ? "n8B" : NULL;
}

/* Blocks of one family may stand in each other's place. */
int family(uint16_t kind)
{
    if (kind >= 1 && kind <= 7)
        return 1;
    if (kind >= 64 && kind <= 91)
        return 64;
    if (kind >= 128 && kind <= 144)
        return 128;
    return kind;
}

/* What is looked at now: the part, how far it was looked at, and where it must end. */
struct look {
    struct part_view *part;
    size_t at, end;
    int block, depth;
};

static int note(struct look *look, uint8_t is, size_t at, int list)
{
    struct part_view *part = look->part;
    if (part->spots == MOST_SPOTS)
        return NO_SPOT;
    part->spot[part->spots] = (struct spot){is, 0, (uint32_t)at, (uint32_t)look->at, look->block, list};
    return part->spots++;
}

static int take(struct look *look, size_t bytes)
{
    if (look->end - look->at < bytes)
        return 0;
    look->at += bytes;
    return 1;
}

static int take_name(struct look *look)
{
    const size_t at = look->at;
    return take(look, 2) && take(look, (size_t)attack_get(look->part->bytes + at, 2));
}

static int look_block(struct look *look, int list);

/* A flag and, if it has the value that announces it, what follows. */
static int look_flag(struct look *look, uint8_t is)
{
    const size_t at = look->at;
    if (!take(look, 1))
        return 0;
    const uint8_t flag = look->part->bytes[at];
    if (is == SPOT_OPT_BLOCK)
        return (flag != 1 || look_block(look, NO_SPOT)) && note(look, is, at, NO_SPOT) >= 0;
    if (is == SPOT_SIZE && flag == 0 && !take(look, 8))
        return 0;
    if (is == SPOT_OPT_NUMBER && flag == 1 && !take(look, 8))
        return 0;
    if (is == SPOT_OPT_NAME && flag == 1 && !take_name(look))
        return 0;
    return note(look, is, at, NO_SPOT) >= 0;
}

static int look_list(struct look *look, uint8_t is)
{
    const size_t at = look->at;
    if (!take(look, 2))
        return 0;
    const int list = note(look, is, at, NO_SPOT);
    for (uint64_t left = attack_get(look->part->bytes + at, 2); left > 0 && list >= 0; left--) {
        const size_t entry = look->at;
        if (is == SPOT_LIST && !look_block(look, list))
            return 0;
        if (is != SPOT_LIST && !take_name(look))
            return 0;
        if (is == SPOT_PAIRS && !take(look, 8))
            return 0;
        if (is != SPOT_LIST && note(look, is == SPOT_PAIRS ? SPOT_PAIR : SPOT_NAME, entry, list) < 0)
            return 0;
    }
    if (list >= 0)
        look->part->spot[list].end = (uint32_t)look->at;
    return list >= 0;
}

static int look_part(struct look *look, uint8_t is)
{
    const size_t at = look->at;
    switch (is) {
    case SPOT_BLOCK:
        return look_block(look, NO_SPOT);
    case SPOT_LIST:
    case SPOT_NAMES:
    case SPOT_PAIRS:
        return look_list(look, is);
    case SPOT_NAME:
        return take_name(look) && note(look, is, at, NO_SPOT) >= 0;
    case SPOT_NUMBER:
        return take(look, 8) && note(look, is, at, NO_SPOT) >= 0;
    case SPOT_CODE:
        return take(look, 9) && note(look, is, at, NO_SPOT) >= 0;
    case SPOT_FLAG:
        return take(look, 1) && note(look, is, at, NO_SPOT) >= 0;
    default:
        return look_flag(look, is);
    }
}

static int look_block(struct look *look, int list)
{
    const size_t at = look->at;
    const uint8_t *bytes = look->part->bytes;
    if (look->depth > 300 || !take(look, 6))
        return 0;
    const uint64_t len = attack_get(bytes + at, 4);
    const uint16_t kind = (uint16_t)attack_get(bytes + at + 4, 2);
    const char *parts = parts_of(kind);
    if (parts == NULL || len < 2 || len > look->end - at - 4)
        return 0;
    const int block = note(look, SPOT_BLOCK, at, list);
    if (block < 0)
        return 0;
    look->part->spot[block].kind = kind;
    look->part->spot[block].end = (uint32_t)(at + 4 + len);
    struct look inner = {look->part, look->at, at + 4 + (size_t)len, block, look->depth + 1};
    while (*parts != 0)
        if (!look_part(&inner, (uint8_t)*parts++))
            return 0;
    look->at = inner.end;
    return 1;
}

/* Where the next of the blocks that stand one behind the other begins. */
static size_t behind(const struct part_view *part, size_t at)
{
    const size_t left = part->len - at;
    const uint64_t len = left < 4 ? left : 4 + attack_get(part->bytes + at, 4);
    return len < left ? at + (size_t)len : part->len;
}

/* Of a part with one block, or with runs one behind the other. */
void find_spots(struct part_view *part)
{
    part->spots = 0;
    for (size_t at = 0; at < part->len; at = behind(part, at)) {
        struct look look = {part, at, part->len, NO_SPOT, 0};
        look_block(&look, NO_SPOT);
    }
}

int splice(struct part_view *part, int block, size_t at, size_t end, const uint8_t *bytes, size_t len)
{
    if (part->len - (end - at) + len > ATTACK_PART)
        return 0;
    memmove(part->bytes + at + len, part->bytes + end, part->len - end);
    if (len > 0)
        memcpy(part->bytes + at, bytes, len);
    part->len = part->len - (end - at) + len;
    for (; block != NO_SPOT; block = part->spot[block].block) {
        uint8_t *field = part->bytes + part->spot[block].at;
        attack_put(field, attack_get(field, 4) + len - (end - at), 4);
    }
    return 1;
}
