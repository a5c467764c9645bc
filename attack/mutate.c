/*
 * Mutations that know blocks: they change a part of an input and put the lengths and counts around it right, so that reading goes
 * on to what lies deeper. Others damage on purpose, and libFuzzer's own mutations stay in use.
 */
#include "blocks.h"

#include <string.h>

size_t LLVMFuzzerMutate(uint8_t *data, size_t size, size_t most);

static uint8_t first_bytes[ATTACK_PART], second_bytes[ATTACK_PART], other_bytes[ATTACK_PART];
static struct part_view first_view = {first_bytes, 0, 0, {{0}}};
static struct part_view second_view = {second_bytes, 0, 0, {{0}}};
static struct part_view other_view = {other_bytes, 0, 0, {{0}}};
static uint8_t scratch[2 * ATTACK_PART + 2 * FRESH];

/* A spot of one of the sorts in `is`, each as likely; of one family if that is not 0; not before `from`. */
static int pick(const struct part_view *part, const char *is, int of, int from)
{
    int found = NO_SPOT;
    uint64_t many = 0;
    for (int i = from; i < part->spots; i++) {
        const struct spot *spot = &part->spot[i];
        if (strchr(is, spot->is) == NULL || (of != 0 && (spot->is != SPOT_BLOCK || family(spot->kind) != of)))
            continue;
        if (draw(++many) == 0)
            found = i;
    }
    return found;
}

/* An entry of a list, if one is met within some draws. */
static int pick_entry(const struct part_view *part)
{
    for (int tries = 0; tries < 10; tries++) {
        const int i = pick(part, "Bnv", 0, 1);
        if (i == NO_SPOT || part->spot[i].list != NO_SPOT)
            return i;
    }
    return NO_SPOT;
}

static void change_number(struct part_view *part, const struct names *names)
{
    (void)names;
    const int i = pick(part, "8v", 0, 0);
    if (i == NO_SPOT)
        return;
    uint8_t *at = part->bytes + part->spot[i].end - 8;
    const uint64_t old = attack_get(at, 8);
    const int other = pick(part, "8v", 0, 0);
    switch (draw(4)) {
    case 0:
        attack_put(at, old + 1 - 2 * draw(2), 8);
        break;
    case 1:
        attack_put(at, attack_get(part->bytes + part->spot[other].end - 8, 8), 8);
        break;
    default:
        attack_put(at, draw_number(), 8);
    }
}

static void change_name(struct part_view *part, const struct names *names)
{
    const int i = pick(part, "nv", 0, 0);
    if (i == NO_SPOT)
        return;
    const struct spot spot = part->spot[i];
    const size_t len = 2 + (size_t)attack_get(part->bytes + spot.at, 2);
    size_t fresh = fresh_name(names, scratch);
    if (draw(8) == 0) {
        memcpy(scratch, part->bytes + spot.at, len);
        fresh = LLVMFuzzerMutate(scratch + 2, len - 2, 300);
        attack_put(scratch, fresh, 2);
        fresh += 2;
    }
    splice(part, spot.block, spot.at, spot.at + len, scratch, fresh);
}

/* Turns a flag, and adds or takes away what it announces. */
static void toggle(struct part_view *part, const struct names *names)
{
    const int i = pick(part, "fsopD", 0, 0);
    if (i == NO_SPOT)
        return;
    const struct spot spot = part->spot[i];
    const uint8_t flag = part->bytes[spot.at] == 0;
    size_t len = 1;
    scratch[0] = draw(30) == 0 ? 2 : flag;
    if ((spot.is == SPOT_SIZE && !flag) || (spot.is == SPOT_OPT_NUMBER && flag)) {
        attack_put(scratch + 1, draw(2) == 0 ? draw_number() : draw(40), 8);
        len += 8;
    }
    if (spot.is == SPOT_OPT_NAME && flag)
        len += fresh_name(names, scratch + 1);
    if (spot.is == SPOT_OPT_BLOCK && flag)
        len += fresh_block(kind_like(129), names, 1, scratch + 1);
    splice(part, spot.block, spot.at, spot.end, scratch, len);
}

static void change_code(struct part_view *part, const struct names *names)
{
    (void)names;
    const int i = pick(part, "c", 0, 0);
    if (i == NO_SPOT)
        return;
    uint8_t *at = part->bytes + part->spot[i].at;
    at[0] = (uint8_t)(draw(20) == 0 ? draw(256) : draw(8));
    if (draw(2) == 0)
        attack_put(at + 1, draw_number(), 8);
}

static void change_count(struct part_view *part, int list, int by)
{
    uint8_t *at = part->bytes + part->spot[list].at;
    attack_put(at, attack_get(at, 2) + (uint64_t)(int64_t)by, 2);
}

/* A list's entry once more, or some times more, behind itself. */
static void duplicate(struct part_view *part, const struct names *names)
{
    (void)names;
    const int i = pick_entry(part);
    if (i == NO_SPOT)
        return;
    const struct spot spot = part->spot[i];
    const size_t len = spot.end - spot.at;
    uint64_t times = draw(8) == 0 ? 1 + draw(70) : 1;
    if (draw(60) == 0)
        times = 500 + draw(20);
    memcpy(scratch, part->bytes + spot.at, len);
    for (; times > 0 && splice(part, spot.block, spot.end, spot.end, scratch, len); times--)
        change_count(part, spot.list, 1);
}

static void take_away(struct part_view *part, const struct names *names)
{
    (void)names;
    const int i = pick_entry(part);
    if (i == NO_SPOT)
        return;
    const struct spot spot = part->spot[i];
    if (splice(part, spot.block, spot.at, spot.end, NULL, 0))
        change_count(part, spot.list, -1);
}

/* A list's entry and the one behind it change places. */
static void swap(struct part_view *part, const struct names *names)
{
    (void)names;
    const int i = pick_entry(part);
    if (i == NO_SPOT)
        return;
    const struct spot one = part->spot[i];
    for (int k = 0; k < part->spots; k++) {
        const struct spot two = part->spot[k];
        if (two.list != one.list || two.at != one.end)
            continue;
        memcpy(scratch, part->bytes + two.at, two.end - two.at);
        memcpy(scratch + (two.end - two.at), part->bytes + one.at, one.end - one.at);
        memcpy(part->bytes + one.at, scratch, two.end - one.at);
        return;
    }
}

static void add_entry(struct part_view *part, const struct names *names)
{
    const int i = pick(part, "LNV", 0, 0);
    if (i == NO_SPOT)
        return;
    const struct spot list = part->spot[i];
    size_t len;
    if (list.is == SPOT_LIST) {
        len = fresh_block(kind_like(entry_kind(part->spot[list.block].kind)), names, 0, scratch);
    } else {
        len = fresh_name(names, scratch);
        attack_put(scratch + len, draw_number(), 8);
        len += list.is == SPOT_PAIRS ? 8 : 0;
    }
    const size_t at = draw(2) == 0 ? list.end : list.at + 2;
    if (splice(part, list.block, at, at, scratch, len))
        change_count(part, i, 1);
}

/* A block makes room for another of its family: from this part, from another part, or a new one. */
static void replace_from(struct part_view *part, const struct part_view *from, const struct names *names)
{
    const int i = pick(part, "B", 0, 1);
    if (i == NO_SPOT)
        return;
    const struct spot spot = part->spot[i];
    const int k = draw(3) == 0 ? NO_SPOT : pick(from, "B", family(spot.kind), 0);
    size_t len;
    if (k == NO_SPOT) {
        len = fresh_block(kind_like(spot.kind), names, 0, scratch);
    } else {
        len = from->spot[k].end - from->spot[k].at;
        memcpy(scratch, from->bytes + from->spot[k].at, len);
    }
    splice(part, spot.block, spot.at, spot.end, scratch, len);
}

static void replace(struct part_view *part, const struct names *names)
{
    replace_from(part, part, names);
}

/* The parts before a block that is wrapped; what the wrapping kind has. */
static size_t before_wrapped(uint16_t kind, const struct names *names, uint8_t *out)
{
    size_t len = 0;
    if (kind < 8) {
        len = fresh_name(names, out);
        out[len++] = 1;
        attack_put(out + len, 1 + draw(8), 8);
        len += 8;
        return len + fresh_block(32, names, 2, out + len);
    }
    if (kind < 128)
        return 0;
    attack_put(out, draw(9), 8);
    out[8] = 0;
    len = 9;
    if (kind == 131) {
        attack_put(out + len, draw(3) == 0 ? draw_number() : draw(17), 8);
        len += 8;
    }
    if (kind == 132) {
        len += fresh_name(names, out + len);
        attack_put(out + len, 0, 2);
        out[len + 2] = 1;
        len += 3;
    }
    return len;
}

/* A block becomes a part of a new block of its family: a node of a sum, an expression of a product, a type of an array. */
static void wrap(struct part_view *part, const struct names *names)
{
    static const uint16_t node_kinds[] = {131, 132, 134, 135, 136, 137, 138, 139, 140, 141, 142, 143, 144};
    const int i = pick(part, "B", 0, 1);
    if (i == NO_SPOT)
        return;
    const struct spot spot = part->spot[i];
    const int of = family(spot.kind);
    const size_t old = spot.end - spot.at;
    if (of != 1 && of != 64 && of != 128)
        return;
    const uint16_t kind = of == 1 ? 5 : of == 64 ? (uint16_t)(68 + draw(24)) : node_kinds[draw(13)];
    uint8_t *at = scratch + 6;
    at += before_wrapped(kind, names, at);
    if (of == 1)
        *at++ = (uint8_t)draw(2);
    memcpy(at, part->bytes + spot.at, old);
    at += old;
    if (of == 1 || (of == 64 && (kind < 79 || kind > 82)))
        at += fresh_block(kind_like(65), names, 1, at);
    if (kind >= 134 && kind <= 143)
        at += fresh_block(kind_like(129), names, 1, at);
    if (kind == 144) {
        at += fresh_name(names, at);
        at += fresh_name(names, at);
    }
    attack_put(scratch, (uint64_t)(at - scratch) - 4, 4);
    attack_put(scratch + 4, kind, 2);
    splice(part, spot.block, spot.at, spot.end, scratch, (size_t)(at - scratch));
}

/* A block makes room for one of its family that lies inside it. */
static void unwrap(struct part_view *part, const struct names *names)
{
    (void)names;
    const int i = pick(part, "B", 0, 1);
    if (i == NO_SPOT)
        return;
    const struct spot spot = part->spot[i];
    const int k = pick(part, "B", family(spot.kind), i + 1);
    if (k == NO_SPOT || part->spot[k].end > spot.end)
        return;
    const size_t len = part->spot[k].end - part->spot[k].at;
    memcpy(scratch, part->bytes + part->spot[k].at, len);
    splice(part, spot.block, spot.at, spot.end, scratch, len);
}

/* Another kind with the same parts. */
static void change_kind(struct part_view *part, const struct names *names)
{
    (void)names;
    const int i = pick(part, "B", 0, 0);
    if (i == NO_SPOT)
        return;
    const uint16_t old = part->spot[i].kind;
    for (int tries = 0; tries < 20; tries++) {
        const uint16_t kind = kind_like(old);
        if (kind == old || strcmp(parts_of(kind), parts_of(old)) != 0)
            continue;
        attack_put(part->bytes + part->spot[i].at + 4, kind, 2);
        return;
    }
}

/* Takes away the end of a block's body, or adds bytes to it; the lengths around it are put right. */
static void cut(struct part_view *part, const struct names *names)
{
    const int i = pick(part, "B", 0, 0);
    if (i == NO_SPOT)
        return;
    const struct spot spot = part->spot[i];
    if (draw(3) == 0) {
        const size_t len = fresh_name(names, scratch);
        splice(part, i, spot.end, spot.end, scratch, draw(len) + 1);
        return;
    }
    const size_t body = spot.end - spot.at - 6;
    if (body == 0)
        return;
    const size_t left = draw(3) == 0 ? 0 : draw(2) == 0 ? body - 1 - draw(body < 9 ? body : 9) : draw(body);
    splice(part, i, spot.at + 6 + left, spot.end, NULL, 0);
}

/* The order of two entries by the name that each begins with, for an owner behind its length and kind. */
static int order(const struct part_view *part, const struct spot *a, const struct spot *b)
{
    const uint8_t *x = part->bytes + a->at + (a->is == SPOT_BLOCK ? 6 : 0);
    const uint8_t *y = part->bytes + b->at + (b->is == SPOT_BLOCK ? 6 : 0);
    const size_t x_len = (size_t)attack_get(x, 2), y_len = (size_t)attack_get(y, 2);
    const int differ = memcmp(x + 2, y + 2, x_len < y_len ? x_len : y_len);
    return differ != 0 ? differ : x_len < y_len ? -1 : x_len > y_len;
}

/* Entries that begin with a name, in order and each once, as question 6 asks. */
static void sort(struct part_view *part, const struct names *names)
{
    static int sorted[MOST_SPOTS];
    (void)names;
    const int list = pick(part, "NVL", 0, 0);
    if (list == NO_SPOT || (part->spot[list].is == SPOT_LIST && part->spot[part->spot[list].block].kind != 32))
        return;
    int many = 0;
    for (int i = list + 1; i < part->spots && many < 600; i++) {
        int at = many;
        if (part->spot[i].list != list)
            continue;
        while (at > 0 && order(part, &part->spot[sorted[at - 1]], &part->spot[i]) > 0)
            at--;
        if (at > 0 && order(part, &part->spot[sorted[at - 1]], &part->spot[i]) == 0)
            continue;
        memmove(sorted + at + 1, sorted + at, (size_t)(many++ - at) * sizeof *sorted);
        sorted[at] = i;
    }
    size_t len = 2;
    attack_put(scratch, (uint64_t)many, 2);
    for (int i = 0; i < many; i++) {
        const struct spot spot = part->spot[sorted[i]];
        memcpy(scratch + len, part->bytes + spot.at, spot.end - spot.at);
        len += spot.end - spot.at;
    }
    splice(part, part->spot[list].block, part->spot[list].at, part->spot[list].end, scratch, len);
}

/* A name with a number before it or behind it, and x up to a length; with its own length before it, for which there is room. */
static size_t numbered(const uint8_t *name, size_t len, int before, uint64_t number, size_t least, uint8_t *out)
{
    size_t end = 2;
    if (!before) {
        memcpy(out + end, name, len);
        end += len;
    }
    for (uint64_t by = 100; by > 0; by /= 10)
        out[end++] = (uint8_t)('0' + number / by % 10);
    if (before) {
        memcpy(out + end, name, len);
        end += len;
    }
    while (end < 2 + least)
        out[end++] = 'x';
    attack_put(out, end - 2, 2);
    return end;
}

/* More values, mostly so many that the list may get an index, and all of them in order. */
static void many_values(struct part_view *part, const struct names *names)
{
    static uint8_t name[FRESH];
    const int i = pick(part, "V", 0, 0);
    if (i == NO_SPOT)
        return;
    const struct spot list = part->spot[i];
    const uint64_t many = draw(4) == 0 ? 1 + draw(500) : 248 + draw(20);
    const size_t bytes = 4096 / many + draw(20), least = bytes < 240 ? bytes : 240;
    const size_t named = fresh_name(names, name) - 2, short_enough = named < 200 ? named : 0;
    const int before = draw(2) == 0;
    size_t len = 0;
    for (uint64_t k = 0; k < many; k++) {
        len += numbered(name + 2, short_enough, before, k, least, scratch + len);
        attack_put(scratch + len, draw(1000), 8);
        len += 8;
    }
    if (!splice(part, list.block, list.end, list.end, scratch, len))
        return;
    change_count(part, i, (int)many);
    find_spots(part);
    sort(part, names);
}

/* A length, a count or a kind that is wrong, or a part that is cut or too long. */
static void damage(struct part_view *part, const struct names *names)
{
    (void)names;
    const int block = pick(part, "B", 0, 0), list = pick(part, "LNV", 0, 0);
    switch (draw(6)) {
    case 0:
        if (block != NO_SPOT) {
            uint8_t *at = part->bytes + part->spot[block].at;
            attack_put(at, attack_get(at, 4) + 1 - 2 * draw(2), 4);
        }
        break;
    case 1:
        if (list != NO_SPOT)
            change_count(part, list, draw(4) == 0 ? (int)draw(600) : (int)(1 - 2 * draw(2)));
        break;
    case 2:
        if (block != NO_SPOT)
            attack_put(part->bytes + part->spot[block].at + 4, draw(200), 2);
        break;
    case 3:
        part->len -= part->len > 0 ? draw(part->len) : 0;
        break;
    case 4:
        if (part->len > 0)
            part->bytes[draw(part->len)] = (uint8_t)draw(256);
        break;
    default:
        part->len = LLVMFuzzerMutate(part->bytes, part->len, ATTACK_PART);
    }
}

/* A block with none around it: the only one, or one of the runs that stand one behind the other. And how many there are. */
static int pick_root(const struct part_view *part, uint64_t *many)
{
    int found = NO_SPOT;
    *many = 0;
    for (int i = 0; i < part->spots; i++)
        if (part->spot[i].is == SPOT_BLOCK && part->spot[i].block == NO_SPOT && draw(++*many) == 0)
            found = i;
    return found;
}

/* A run once more, or some times more, behind itself. */
static void repeat(struct part_view *part, size_t at, size_t end)
{
    uint64_t times = draw(4) == 0 ? 1 + draw(70) : 1;
    memcpy(scratch, part->bytes + at, end - at);
    while (times-- > 0 && splice(part, NO_SPOT, end, end, scratch, end - at))
        ;
}

/* One run more or less; a length by which a run ends elsewhere than the next begins; an end that is cut, or is no run. */
static void change_runs(struct part_view *part, const struct names *names)
{
    uint64_t many;
    const int i = pick_root(part, &many);
    const size_t at = i == NO_SPOT ? 0 : part->spot[i].at, end = i == NO_SPOT ? part->len : part->spot[i].end;
    const size_t left = part->len - at;
    switch (draw(6)) {
    case 0:
        splice(part, NO_SPOT, end, end, scratch, fresh_block(193, names, 0, scratch));
        break;
    case 1:
        repeat(part, at, end);
        break;
    case 2:
        splice(part, NO_SPOT, at, end, NULL, 0);
        break;
    case 3:
        if (left >= 4)
            attack_put(part->bytes + at, draw(2) == 0 ? draw(left + 2) : left - 5 + draw(3), 4);
        break;
    case 4:
        part->len -= 1 + draw(left < 9 ? left : 9);
        break;
    default:
        attack_put(scratch, draw_number(), 8);
        splice(part, NO_SPOT, part->len, part->len, scratch, 1 + draw(8));
    }
}

typedef void mutation(struct part_view *, const struct names *);

/* Listed as often as they are wanted. */
static mutation *const mutations[] = {change_number, change_number, change_number, change_name, change_name, change_name,
                                      toggle,        toggle,        change_code,   duplicate,   take_away,   swap,
                                      add_entry,     add_entry,     replace,       replace,     wrap,        wrap,
                                      unwrap,        change_kind,   change_kind,   sort,        sort,        damage,
                                      cut,           many_values};

static void load(struct part_view *view, struct attack_bytes bytes)
{
    view->len = bytes.len;
    if (bytes.len > 0)
        memcpy(view->bytes, bytes.at, bytes.len);
    find_spots(view);
}

/* The names of both parts. They point into the parts, so a copy is taken. */
static void all_names(struct names *names)
{
    static uint8_t kept[256 * 300];
    size_t at = 0;
    names->many = 0;
    gather_names(names, &first_view);
    gather_names(names, &second_view);
    for (int i = 0; i < names->many; i++) {
        const size_t len = names->name[i].len < 300 ? names->name[i].len : 300;
        memcpy(kept + at, names->name[i].at, len);
        names->name[i].at = kept + at;
        names->name[i].len = len;
        at += len;
    }
}

/* A validation by the kind of the second part: over a layout, or over that which a set builds to. */
static uint8_t validation_for(int builds)
{
    uint64_t many;
    pick_root(&second_view, &many);
    if (second_view.len < 6 || attack_get(second_view.bytes + 4, 2) != 193)
        return builds ? ATTACK_BUILD_VALIDATE : draw(2) == 0 ? ATTACK_LENGTH_OF : ATTACK_VALIDATE;
    if (draw(many > 1 ? 8 : 3) > 1)
        return builds ? ATTACK_BUILD_RUNS : ATTACK_VALIDATE_RUNS;
    return builds ? ATTACK_BUILD_RUN : draw(2) == 0 ? ATTACK_LENGTH_OF_RUN : ATTACK_VALIDATE_RUN;
}

/* What the call may be, by the kinds of the parts that are there. */
static uint8_t what_for(void)
{
    const uint64_t kind = first_view.len >= 6 ? attack_get(first_view.bytes + 4, 2) : 0;
    switch (draw(20) == 0 ? 0 : kind) {
    case 36:
        if (draw(2) == 0)
            return draw(4) == 0 ? ATTACK_READ_SET : ATTACK_BUILD_SET;
        return validation_for(1);
    case 160:
        return draw(8) == 0 ? ATTACK_READ_LAYOUT : validation_for(0);
    case 192:
        return ATTACK_READ_VALUES;
    case 193:
        return ATTACK_READ_RUN;
    default:
        return (uint8_t)draw(ATTACK_WHATS);
    }
}

static void change_header(struct attack_input *in)
{
    switch (draw(8)) {
    case 0:
        in->words = (uint8_t)(draw(4) == 0 ? 248 + draw(8) : 0);
        break;
    case 1:
        in->room = (uint8_t)(draw(2) == 0 ? 240 + draw(8) : 0);
        break;
    case 2:
        in->dirty = (uint8_t)draw(256);
        break;
    case 3:
        in->pad = (uint8_t)(draw(20) == 0 ? 250 + draw(6) : 0);
        break;
    case 4:
    case 5:
        in->length = draw(3) == 0 ? draw_number() : draw(3) == 0 ? in->length + 1 - 2 * draw(2) : draw(1000);
        break;
    default:
        in->what = what_for();
    }
}

/* A new root where a part is empty, so that a damaged input comes back to blocks. */
static void fill(const struct attack_input *in, struct part_view *part, const struct names *names)
{
    static const uint16_t firsts[ATTACK_WHATS] = {36, 160, 192, 193, 36, 160, 160, 160, 160, 160, 36, 36, 36};
    const uint16_t kind = part == &first_view ? firsts[in->what] : attack_takes_run(in->what) ? 193 : 192;
    part->len = fresh_block(kind, names, 0, scratch);
    memcpy(part->bytes, scratch, part->len);
}

static void mutate_part(const struct attack_input *in, struct part_view *part, const struct names *names)
{
    if (part->len == 0 || draw(300) == 0)
        fill(in, part, names);
    else if (part == &second_view && attack_takes_runs(in->what) && draw(3) == 0)
        change_runs(part, names);
    else
        mutations[draw(sizeof mutations / sizeof mutations[0])](part, names);
    find_spots(part);
}

/* Parts after a change, written back; libFuzzer's own mutation where there is no room. */
static size_t write_back(struct attack_input *in, uint8_t *data, size_t size, size_t most)
{
    static uint8_t out[ATTACK_HEADER + 3 * ATTACK_PART];
    in->first = (struct attack_bytes){first_view.bytes, first_view.len};
    in->second = (struct attack_bytes){second_view.bytes, second_view.len};
    const size_t len = attack_write(in, out, sizeof out < most ? sizeof out : most);
    if (len == 0)
        return LLVMFuzzerMutate(data, size, most);
    memcpy(data, out, len);
    return len;
}

size_t LLVMFuzzerCustomMutator(uint8_t *data, size_t size, size_t most, unsigned int seed)
{
    static uint8_t asked[FRESH];
    struct attack_input in;
    struct names names;
    seed_draw(seed);
    if (!attack_parse(data, size, &in) || draw(25) == 0)
        return LLVMFuzzerMutate(data, size, most);
    load(&first_view, in.first);
    load(&second_view, in.second);
    for (uint64_t times = 1 + (draw(2) == 0 ? draw(4) : 0); times > 0; times--) {
        const int two = in.what >= ATTACK_VALIDATE;
        const uint64_t one_in = attack_takes_runs(in.what) ? 2 : 4;
        all_names(&names);
        if (draw(10) == 0) {
            change_header(&in);
        } else if (two && draw(12) == 0) {
            in.name.len = fresh_name(&names, asked) - 2;
            in.name.at = asked + 2;
        } else {
            mutate_part(&in, two && draw(one_in) == 0 ? &second_view : &first_view, &names);
        }
    }
    return write_back(&in, data, size, most);
}

/* The runs of another input behind those that are there. */
static void join_runs(struct part_view *part, struct attack_bytes runs)
{
    if (splice(part, NO_SPOT, part->len, part->len, runs.at, runs.len))
        find_spots(part);
}

/* Puts a block of the second input into the first, or takes over its second part. */
size_t LLVMFuzzerCustomCrossOver(const uint8_t *data1, size_t size1, const uint8_t *data2, size_t size2, uint8_t *out, size_t most,
                                 unsigned int seed)
{
    struct attack_input in, from;
    struct names names;
    seed_draw(seed);
    if (!attack_parse(data1, size1, &in) || !attack_parse(data2, size2, &from))
        return 0;
    load(&first_view, in.first);
    load(&second_view, draw(4) == 0 ? from.second : in.second);
    load(&other_view, from.first);
    if (attack_takes_runs(in.what) && draw(2) == 0)
        join_runs(&second_view, from.second);
    all_names(&names);
    if (draw(4) == 0)
        in.name = from.name;
    replace_from(&first_view, &other_view, &names);
    in.first = (struct attack_bytes){first_view.bytes, first_view.len};
    in.second = (struct attack_bytes){second_view.bytes, second_view.len};
    return attack_write(&in, out, most);
}
