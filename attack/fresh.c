/* Numbers, names and small blocks that a mutation puts in. */
#include "blocks.h"

#include <string.h>

static uint64_t state = 1;

void seed_draw(uint64_t seed)
{
    state = seed * UINT64_C(0x9E3779B97F4A7C15) | 1;
}

/* A number below a bound, which is not 0. */
uint64_t draw(uint64_t below)
{
    state ^= state << 13;
    state ^= state >> 7;
    state ^= state << 17;
    return (state >> 11) % below;
}

/* Numbers at which a rule changes: limits, widths, the ends of 64 bits; or small ones. */
uint64_t draw_number(void)
{
    static const uint64_t edges[] = {0, 1, 2, 3, 4, 7, 8, 9, 16, 63, 64, 65, 127, 128, 129, 255, 256, 65535, 65536,
                                     UINT64_C(0x7FFFFFFF), UINT64_C(0x80000000), UINT64_C(0xFFFFFFFF), UINT64_C(0x100000000)};
    switch (draw(8)) {
    case 0:
    case 1:
        return draw(20);
    case 2:
        return UINT64_MAX - draw(20);
    case 3:
        return (UINT64_C(1) << draw(64)) - draw(2);
    case 4:
        return ~edges[draw(sizeof edges / sizeof edges[0])] + 1;
    case 5:
        return UINT64_MAX / (1 + draw(300));
    default:
        return edges[draw(sizeof edges / sizeof edges[0])];
    }
}

void gather_names(struct names *names, const struct part_view *part)
{
    for (int i = 0; i < part->spots; i++) {
        const struct spot *spot = &part->spot[i];
        const size_t flag = spot->is == SPOT_OPT_NAME;
        if (names->many == 256)
            return;
        if (spot->is != SPOT_NAME && spot->is != SPOT_PAIR && !(flag && spot->end > spot->at + 3))
            continue;
        const uint8_t *at = part->bytes + spot->at + flag;
        names->name[names->many].at = at + 2;
        names->name[names->many++].len = (size_t)attack_get(at, 2);
    }
}

static size_t word(const struct names *names, uint8_t *out)
{
    static const char *const words[] = {"__buffer_size", "a", "b", "n", "T", "L0", "element", "tag", "a.b", "a::b", "", "u8",
                                        "\xC3\xA9", "\xC3\xAA", "e\xCC\x81", "\xE2\x82\xAC.n", "\xEF\xBF\xBF", "\xF0\x90\x80\x80",
                                        "a::\xF0\x9F\x9A\x8C", "element.\xC3\xA9", "\xC3", "\xA9", "\xED\xA0\x80"};
    if (names->many > 0 && draw(5) > 0) {
        const struct attack_bytes name = names->name[draw((uint64_t)names->many)];
        const size_t len = name.len < 300 ? name.len : 300;
        memcpy(out, name.at, len);
        return len;
    }
    const char *text = words[draw(sizeof words / sizeof words[0])];
    memcpy(out, text, strlen(text));
    return strlen(text);
}

/* Fills up a name, for limits of names that are put together, with letters of one byte or of two. */
static size_t stretch(uint8_t *out, size_t len, size_t to)
{
    const int accents = draw(2) == 0;
    if (len < to)
        memset(out + len, 'x', to - len);
    for (; accents && len + 2 <= to; len += 2)
        memcpy(out + len, "\xC3\xA9", 2);
    return to;
}

/* A name: one of the input's, two joined, the rest behind a dot, or a long one; without its length. */
static size_t text(const struct names *names, uint8_t *out)
{
    size_t len = word(names, out);
    switch (draw(12)) {
    case 0:
    case 1: {
        static const char *const marks[] = {".", "::", "", "_"};
        const char *mark = marks[draw(4)];
        memcpy(out + len, mark, strlen(mark));
        len += strlen(mark);
        return len + word(names, out + len);
    }
    case 2: {
        const uint8_t *dot = memchr(out, '.', len);
        if (dot == NULL)
            return len;
        const size_t rest = len - (size_t)(dot + 1 - out);
        memmove(out, dot + 1, rest);
        return rest;
    }
    case 3:
        return draw(3) == 0 ? stretch(out, len, 250 + draw(8)) : len;
    case 4:
        return draw(3) == 0 ? stretch(out, len, 80 + draw(60)) : len;
    default:
        return len;
    }
}

size_t fresh_name(const struct names *names, uint8_t *out)
{
    const size_t len = text(names, out + 2);
    attack_put(out, len, 2);
    return 2 + len;
}

/* Another kind of the same family, or the only one. */
uint16_t kind_like(uint16_t kind)
{
    switch (family(kind)) {
    case 1:
        return (uint16_t)(1 + draw(7));
    case 64:
        return (uint16_t)(draw(2) == 0 ? 64 + draw(2) : 64 + draw(28));
    case 128:
        return (uint16_t)(draw(2) == 0 ? 128 + draw(3) : 128 + draw(17));
    default:
        return kind;
    }
}

/* The kind of a block that stands as the part `part` (counted from 0) of a block of some kind. */
static uint16_t child_kind(uint16_t kind, int part)
{
    switch (family(kind)) {
    case 1:
        if (part == 3)
            return 32;
        return kind == 4 && part == 4 ? 65 : kind == 5 && part == 6 ? 65 : 1;
    case 64:
    case 128:
        return (uint16_t)(family(kind) + 1);
    case 33:
    case 34:
    case 35:
        return 1;
    case 161:
    case 163:
        return 129;
    default:
        return 192;
    }
}

/* The kind of the entries of a list in a block of some kind. */
uint16_t entry_kind(uint16_t kind)
{
    static const uint8_t types[] = {0, 0, 33, 33, 34, 0, 35, 0};
    if (kind <= 7)
        return types[kind];
    switch (kind) {
    case 32:
        return 37;
    case 36:
        return 1;
    case 132:
        return 163;
    case 133:
        return 164;
    case 160:
        return 161;
    default:
        return 162;
    }
}

static size_t fresh_list(uint16_t kind, uint8_t is, const struct names *names, int depth, uint8_t *out)
{
    const uint64_t many = depth > 2 ? 0 : draw(3);
    size_t len = 2;
    attack_put(out, many, 2);
    for (uint64_t i = 0; i < many; i++) {
        if (is == SPOT_LIST) {
            len += fresh_block(kind_like(entry_kind(kind)), names, depth + 1, out + len);
            continue;
        }
        len += fresh_name(names, out + len);
        if (is == SPOT_PAIRS) {
            attack_put(out + len, draw_number(), 8);
            len += 8;
        }
    }
    return len;
}

/* A literal: mostly a small number that every code takes. */
static size_t fresh_code(uint8_t *out)
{
    out[0] = (uint8_t)draw(8);
    attack_put(out + 1, draw(4) == 0 ? draw_number() : draw(100), 8);
    return 9;
}

static size_t fresh_part(uint16_t kind, int part, uint8_t is, const struct names *names, int depth, uint8_t *out)
{
    const uint8_t flag = (uint8_t)draw(2);
    out[0] = flag;
    switch (is) {
    case SPOT_NAME:
        return fresh_name(names, out);
    case SPOT_NUMBER:
        attack_put(out, draw(3) == 0 ? draw_number() : draw(9), 8);
        return 8;
    case SPOT_FLAG:
        return 1;
    case SPOT_CODE:
        return fresh_code(out);
    case SPOT_SIZE:
    case SPOT_OPT_NUMBER:
        attack_put(out + 1, draw(4) == 0 ? draw_number() : draw(20), 8);
        return (is == SPOT_SIZE) == (flag == 0) ? 9 : 1;
    case SPOT_OPT_NAME:
        return flag ? 1 + fresh_name(names, out + 1) : 1;
    case SPOT_BLOCK:
        return fresh_block(depth > 2 ? child_kind(kind, part) : kind_like(child_kind(kind, part)), names, depth + 1, out);
    case SPOT_OPT_BLOCK:
        return flag ? 1 + fresh_block(129, names, depth + 1, out + 1) : 1;
    default:
        return fresh_list(kind, is, names, depth, out);
    }
}

/* A block with parts of its kind. Where it grows too large, its parts are left out, which is one more damaged block. */
size_t fresh_block(uint16_t kind, const struct names *names, int depth, uint8_t *out)
{
    static uint8_t scratch[8][4 * FRESH];
    uint8_t *body = scratch[depth < 7 ? depth : 7];
    const char *parts = parts_of(kind);
    size_t len = 0;
    for (int i = 0; depth < 7 && parts[i] != 0 && len < FRESH / 2; i++)
        len += fresh_part(kind, i, (uint8_t)parts[i], names, depth, body + len);
    if (len > (size_t)(FRESH / 2) >> depth)
        len = 0;
    attack_put(out, len + 2, 4);
    attack_put(out + 4, kind, 2);
    memcpy(out + 6, body, len);
    return 6 + len;
}
