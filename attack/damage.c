/*
 * Damages a good input in every way at every part of it: a part that is cut, a flag that is 2, a name that is too long, a count or a
 * length that is off by one. Only in blocks of kinds that were not damaged before, so that every kind comes once.
 */
#include "damage.h"

#include <string.h>

static uint8_t bytes[ATTACK_PART];
static struct part_view part = {bytes, 0, 0, {{0}}};
static const uint8_t *good;
static size_t good_len;
static damage_taker *taker;

/* Back to the good input. The spots stay as they are. */
static void restore(void)
{
    memcpy(bytes, good, good_len);
    part.len = good_len;
}

static void emit(void)
{
    taker(bytes, part.len);
    restore();
}

/* The block around a spot ends at `at`, before its time. */
static void cut(int block, size_t at)
{
    if (splice(&part, block, at, part.spot[block].end, NULL, 0))
        emit();
    restore();
}

static void change(size_t at, uint64_t value, size_t size)
{
    attack_put(bytes + at, value, size);
    emit();
}

/* A flag or code that may not stand there, with what must follow it and without: the one is asked before the other. */
static void forbid(const struct spot *spot, uint8_t value)
{
    change(spot->at, value, 1);
    bytes[spot->at] = value;
    cut(spot->block, spot->at + 1);
}

/* The name at a place gives way to another. */
static void rename_to(int block, size_t at, const void *text, size_t text_len)
{
    static uint8_t name[2 + 256];
    const size_t len = (size_t)attack_get(bytes + at, 2);
    attack_put(name, text_len, 2);
    memcpy(name + 2, text, text_len);
    if (splice(&part, block, at, at + 2 + len, name, 2 + text_len))
        emit();
}

/* Texts of UTF-8 at the edges of its forms, and such as are none: too long a form, a surrogate, above U+10FFFF, cut. */
static const char *const texts[] = {
    "\xC2\x80", "\xDF\xBF", "\xE0\xA0\x80", "\xED\x9F\xBF", "\xEE\x80\x80", "\xEF\xBF\xBF", "\xF0\x90\x80\x80", "\xF4\x8F\xBF\xBF",
    "e\xCC\x81", "\x80", "\xC1\xBF", "\xC2", "\xC3(", "\xE0\x9F\xBF", "\xE2\x82", "\xE2\x82(", "\xED\xA0\x80", "\xF0\x8F\xBF\xBF",
    "\xF0\x9F\x9A", "\xF4\x90\x80\x80", "\xF5\x80\x80\x80", "\xFF", "\xC3\xA9\x80",
};

/* Names: a byte below and above what may stand there, UTF-8 and what is none, and 255 and 256 bytes. */
static void damage_name(int block, size_t at)
{
    static uint8_t name[256];
    const size_t len = (size_t)attack_get(bytes + at, 2);
    if (len > 0) {
        change(at + 2, 0x1F, 1);
        change(at + 1 + len, 0x7F, 1);
    }
    for (size_t i = 0; i < sizeof texts / sizeof texts[0]; i++)
        rename_to(block, at, texts[i], strlen(texts[i]));
    for (size_t long_len = 255; long_len <= 256; long_len++) {
        memset(name, 'x', sizeof name);
        rename_to(block, at, name, long_len);
        memcpy(name + long_len - 4, "\xF0\x9F\x9A\x8C", 4);
        rename_to(block, at, name, long_len);
        rename_to(block, at, name, long_len - 1);
    }
}

static void damage_count(size_t at)
{
    static const uint64_t counts[] = {64, 65, 256, 257, 512, 513, 65535};
    const uint64_t count = attack_get(bytes + at, 2);
    change(at, count + 1, 2);
    change(at, count - 1, 2);
    for (size_t i = 0; i < sizeof counts / sizeof counts[0]; i++)
        change(at, counts[i], 2);
}

/* Literals: every code, and one more, with the numbers at the ends of every width. */
static void damage_literal(size_t at)
{
    static const uint64_t ends[] = {UINT64_C(1) << 7,  UINT64_C(1) << 8,  UINT64_C(1) << 15, UINT64_C(1) << 16,
                                    UINT64_C(1) << 31, UINT64_C(1) << 32, UINT64_C(1) << 63, 0};
    for (uint64_t code = 0; code < 9; code++)
        for (size_t i = 0; i < sizeof ends / sizeof ends[0]; i++) {
            const uint64_t values[] = {ends[i], ends[i] - 1, ~ends[i], ~ends[i] + 1};
            for (int k = 0; k < 4; k++) {
                attack_put(bytes + at, code, 1);
                change(at + 1, values[k], 8);
            }
        }
}

static void damage_part(const struct spot *spot)
{
    cut(spot->block, spot->at);
    if (spot->end - spot->at > 1) {
        cut(spot->block, spot->at + 1);
        cut(spot->block, spot->end - 1);
    }
    if (strchr("fsopD", spot->is) != NULL) {
        forbid(spot, 2);
        change(spot->at, bytes[spot->at] ^ 1, 1);
    }
    if (spot->is == SPOT_OPT_NAME && bytes[spot->at] == 1)
        damage_name(spot->block, spot->at + 1);
    if (spot->is == SPOT_NAME || spot->is == SPOT_PAIR)
        damage_name(spot->block, spot->at);
    if (strchr("LNV", spot->is) != NULL)
        damage_count(spot->at);
    if (spot->is == SPOT_CODE) {
        forbid(spot, 8);
        damage_literal(spot->at);
    }
}

static void damage_block(const struct spot *spot, int i)
{
    static const uint8_t more[] = {0};
    const uint64_t len = attack_get(bytes + spot->at, 4);
    const uint64_t lens[] = {len + 1, len - 1, 1, 0, 2, UINT32_MAX, 65533};
    const uint64_t kinds[] = {0, spot->kind + 1u, spot->kind - 1u, spot->kind + 256u, 8, 31, 38, 63, 92, 127, 145, 159, 165, 194};
    for (size_t k = 0; k < sizeof lens / sizeof lens[0]; k++)
        change(spot->at, lens[k], 4);
    for (size_t k = 0; k < sizeof kinds / sizeof kinds[0]; k++)
        change(spot->at + 4, kinds[k], 2);
    if (splice(&part, i, spot->end, spot->end, more, 1))
        emit();
    cut(i, spot->at + 6);
    if (spot->block != NO_SPOT)
        cut(spot->block, spot->at + 5);
    if (splice(&part, spot->block, spot->at, spot->end, NULL, 0))
        emit();
}

void damage_each(const uint8_t *input, size_t len, uint8_t done[256], damage_taker *take)
{
    good = input;
    good_len = len;
    taker = take;
    if (len > ATTACK_PART)
        return;
    restore();
    find_spots(&part);
    for (int i = 0; i < part.spots; i++) {
        const struct spot spot = part.spot[i];
        const uint16_t kind = spot.is == SPOT_BLOCK ? spot.kind : part.spot[spot.block].kind;
        if (done[kind & 255])
            continue;
        if (spot.is == SPOT_BLOCK)
            damage_block(&spot, i);
        else
            damage_part(&spot);
    }
    for (int i = 0; i < part.spots; i++)
        if (part.spot[i].is == SPOT_BLOCK)
            done[part.spot[i].kind & 255] = 1;
}
