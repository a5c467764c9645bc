/* Inputs at the limits of document 01 and one beyond them, which mutations of small inputs seldom reach. */
#include "limits.h"

#include <stdio.h>
#include <string.h>

static void put(struct limit_bytes *b, uint64_t value, size_t bytes)
{
    if (b->len + bytes <= sizeof b->at)
        attack_put(b->at + b->len, value, bytes);
    b->len += b->len + bytes <= sizeof b->at ? bytes : 0;
}

/* A name: letters, a number of five digits, and as many x as are wanted. */
static void put_name(struct limit_bytes *b, const char *letters, int number, size_t more)
{
    char name[300];
    size_t len = (size_t)snprintf(name, sizeof name, "%s%05d", letters, number);
    memset(name + len, 'x', more);
    len += more;
    put(b, len, 2);
    for (size_t i = 0; i < len; i++)
        put(b, (uint8_t)name[i], 1);
}

static size_t open_block(struct limit_bytes *b, uint64_t kind)
{
    const size_t at = b->len;
    put(b, 0, 4);
    put(b, kind, 2);
    return at;
}

static void close_block(struct limit_bytes *b, size_t at)
{
    attack_put(b->at + at, b->len - at - 4, 4);
}

/* The owner's name, a middle, and the end by which a payload's size is known. */
static void put_payload_path(struct limit_bytes *b, size_t owner, const char *middle)
{
    static const char end[] = ".payload_size";
    const size_t at = b->len;
    put_name(b, "f", 0, owner);
    for (; *middle != 0; middle++)
        put(b, (uint8_t)*middle, 1);
    for (size_t i = 0; i + 1 < sizeof end; i++)
        put(b, (uint8_t)end[i], 1);
    attack_put(b->at + at, b->len - at - 2, 2);
}

/* A type's head of variable size, with one owner; its paths are as long as asked, and two of them may be those of payloads. */
static size_t open_long_type(struct limit_bytes *b, uint64_t kind, const struct limit_names *n)
{
    const size_t at = open_block(b, kind);
    put_name(b, n->name, 0, n->stretched);
    put(b, 1, 1);
    put(b, 1, 8);
    const size_t references = open_block(b, 32);
    put(b, 1, 2);
    const size_t inner = open_block(b, 37);
    put_name(b, "f", 0, n->owner);
    put(b, n->payloads ? 3 : 1, 2);
    if (n->payloads) {
        put_payload_path(b, n->payloads == 1 ? 0 : n->owner, "");
        put_payload_path(b, n->owner, n->payloads == 1 && n->owner > 0 ? "" : ".z");
    }
    put_name(b, "p", 0, n->path);
    close_block(b, inner);
    close_block(b, references);
    return at;
}

/* A type's head: 4 bytes or variable; `owners` owners with `paths` paths each. */
static size_t open_type(struct limit_bytes *b, uint64_t kind, int number, size_t more, int owners, int paths)
{
    const size_t at = open_block(b, kind);
    put_name(b, "T", number, more);
    put(b, kind != 1, 1);
    if (kind == 1)
        put(b, 4, 8);
    put(b, 1, 8);
    const size_t references = open_block(b, 32);
    put(b, (uint64_t)owners, 2);
    for (int i = 0; i < owners; i++) {
        const size_t owner = open_block(b, 37);
        put_name(b, "f", i, 0);
        put(b, (uint64_t)paths, 2);
        for (int k = 0; k < paths; k++)
            put_name(b, "p", k, 0);
        close_block(b, owner);
    }
    close_block(b, references);
    return at;
}

static void put_literal(struct limit_bytes *b)
{
    const size_t literal = open_block(b, 64);
    put(b, 0, 1);
    put(b, 2, 8);
    close_block(b, literal);
}

/* A field reference of some segments, each stretched. */
static void put_path(struct limit_bytes *b, int segments, size_t more)
{
    const size_t path = open_block(b, 65);
    put(b, (uint64_t)segments, 2);
    for (int i = 0; i < segments; i++)
        put_name(b, "p", i, more);
    close_block(b, path);
}

/* As many primitive types as asked; the first `longer` have names that are one byte longer. */
void limit_types(struct limit_bytes *b, int types, size_t more, int longer)
{
    b->len = 0;
    const size_t set = open_block(b, 36);
    put(b, (uint64_t)types, 2);
    for (int i = 0; i < types; i++)
        close_block(b, open_type(b, 1, i, more + (i < longer), 0, 0));
    close_block(b, set);
}

/* A struct or union of fields, each an array of as many elements as its owner's first path says. */
void limit_fields(struct limit_bytes *b, uint64_t kind, int fields, int owners, int paths)
{
    b->len = 0;
    const size_t set = open_block(b, 36);
    put(b, 1, 2);
    const size_t type = open_type(b, kind, 0, 0, owners, paths);
    put(b, (uint64_t)fields, 2);
    for (int i = 0; i < fields; i++) {
        const size_t field = open_block(b, 33);
        put_name(b, "f", i, 0);
        put(b, 0, 1);
        const size_t array = open_type(b, 5, i, 0, 0, 0);
        put(b, 0, 1);
        close_block(b, open_type(b, 1, i, 0, 0, 0));
        put_path(b, 1, 0);
        close_block(b, array);
        close_block(b, field);
    }
    close_block(b, type);
    close_block(b, set);
}

/* A list of one field (33) or variant (34, 35). */
static void put_entry(struct limit_bytes *b, uint64_t kind)
{
    put(b, 1, 2);
    const size_t entry = open_block(b, kind);
    put_name(b, "v", 1, 0);
    put(b, kind == 33 ? 0 : 3, kind == 33 ? 1 : 8);
    close_block(b, open_type(b, 1, 7, 0, 0, 0));
    close_block(b, entry);
}

/* An enum's tag: a path, or for an even number of segments a sum over one. */
static void put_tag(struct limit_bytes *b, int segments, size_t more)
{
    const size_t sum = segments % 2 == 0 ? open_block(b, 68) : b->len;
    put_path(b, segments, more);
    if (segments % 2 != 0)
        return;
    put_literal(b);
    close_block(b, sum);
}

/* What a type of some kind has behind its head; a path of some segments where there is an expression. */
static void put_rest(struct limit_bytes *b, uint64_t kind, int segments, size_t more)
{
    switch (kind) {
    case 4:
        put_tag(b, segments, more);
        put_entry(b, 34);
        break;
    case 5:
        put(b, 0, 1);
        close_block(b, open_type(b, 1, 7, 0, 0, 0));
        put_path(b, segments, more);
        break;
    case 6:
        put_entry(b, 35);
        break;
    case 7:
        put_name(b, "T", 1, 0);
        break;
    default:
        put_entry(b, 33);
    }
}

/*
 * A struct whose fields, arrays with 64 references each, fill the registry, and behind them a field of some kind with references of
 * its own; T00001 is there for a type reference.
 */
void limit_registry(struct limit_bytes *b, int full, uint64_t kind, int paths)
{
    b->len = 0;
    const size_t set = open_block(b, 36);
    put(b, 2, 2);
    const size_t type = open_type(b, 2, 0, 0, 0, 0);
    put(b, (uint64_t)full + 1, 2);
    for (int i = 0; i <= full; i++) {
        const size_t field = open_block(b, 33);
        put_name(b, "f", 9000 + i, 0);
        put(b, 0, 1);
        const size_t inner = open_type(b, i < full ? 5 : kind, i, 0, i == full && paths == 0 ? 0 : 1, i < full ? 64 : paths);
        if (i < full) {
            put(b, 0, 1);
            close_block(b, open_type(b, 1, i, 0, 0, 0));
            put_literal(b);
        } else {
            put_rest(b, kind, 1, 0);
        }
        close_block(b, inner);
        close_block(b, field);
    }
    close_block(b, type);
    close_block(b, open_type(b, 1, 1, 0, 0, 0));
    close_block(b, set);
}

/* A type of some kind whose names are long, as the set's own or as a struct's field. */
void limit_long(struct limit_bytes *b, uint64_t kind, int root, const struct limit_names *n)
{
    b->len = 0;
    const size_t set = open_block(b, 36);
    put(b, 2, 2);
    const size_t type = open_long_type(b, root ? kind : 2, n);
    if (root) {
        put_rest(b, kind, n->segments, n->segment);
    } else {
        put(b, 1, 2);
        const size_t field = open_block(b, 33);
        put_name(b, "f", 0, n->owner);
        put(b, 0, 1);
        const size_t inner = open_long_type(b, kind, n);
        put_rest(b, kind, n->segments, n->segment);
        close_block(b, inner);
        close_block(b, field);
    }
    close_block(b, type);
    close_block(b, open_type(b, 1, 1, 0, 0, 0));
    close_block(b, set);
}

static void put_arrays(struct limit_bytes *b, int arrays)
{
    const size_t at = open_type(b, arrays > 0 ? 5 : 1, arrays, 0, 0, 0);
    if (arrays > 0) {
        put(b, 0, 1);
        put_arrays(b, arrays - 1);
        put_literal(b);
    }
    close_block(b, at);
}

/* Arrays in each other: the set, the arrays, a primitive type and its references are open together. */
void limit_depth_set(struct limit_bytes *b, int open)
{
    b->len = 0;
    const size_t set = open_block(b, 36);
    put(b, 1, 2);
    put_arrays(b, open - 3);
    close_block(b, set);
}

static size_t open_node(struct limit_bytes *b, uint64_t kind)
{
    const size_t at = open_block(b, kind);
    put(b, 1, 8);
    put(b, 0, 1);
    return at;
}

static void put_call(struct limit_bytes *b, int called, int arguments)
{
    const size_t at = open_node(b, 133);
    put_name(b, "T", called, 0);
    put(b, (uint64_t)arguments, 2);
    for (int i = 0; i < arguments; i++) {
        const size_t argument = open_block(b, 164);
        put_name(b, "a", i, 0);
        put_name(b, "v", i, 0);
        close_block(b, argument);
    }
    close_block(b, at);
}

static void put_aligned(struct limit_bytes *b, int aligned, int called)
{
    if (aligned == 0) {
        put_call(b, called, 0);
        return;
    }
    const size_t at = open_node(b, 131);
    put(b, 4, 8);
    put_aligned(b, aligned - 1, called);
    close_block(b, at);
}

static size_t open_tree(struct limit_bytes *b, int number)
{
    const size_t at = open_block(b, 161);
    put_name(b, "T", number, 0);
    put(b, 1, 8);
    return at;
}

static void close_tree(struct limit_bytes *b, size_t at, int parameters)
{
    put(b, (uint64_t)parameters, 2);
    for (int i = 0; i < parameters; i++) {
        const size_t parameter = open_block(b, 162);
        put_name(b, "a", i, 0);
        put(b, 0, 2);
        close_block(b, parameter);
    }
    close_block(b, at);
}

/* One type of nested nodes that calls itself: so many blocks are open together. */
void limit_depth_layout(struct limit_bytes *b, int open)
{
    b->len = 0;
    const size_t layout = open_block(b, 160);
    put(b, 1, 2);
    const size_t tree = open_tree(b, 0);
    put_aligned(b, open - 3, 0);
    close_tree(b, tree, 0);
    close_block(b, layout);
}

static void put_constant(struct limit_bytes *b, uint64_t value)
{
    const size_t at = open_node(b, 129);
    put(b, value, 8);
    close_block(b, at);
}

/* Types of which each calls the next, and the last is a constant; the first has arguments, all have parameters. */
void limit_calls(struct limit_bytes *b, int types, int arguments, int parameters)
{
    b->len = 0;
    const size_t layout = open_block(b, 160);
    put(b, (uint64_t)types, 2);
    for (int i = 0; i < types; i++) {
        const size_t tree = open_tree(b, i);
        if (i + 1 < types) {
            put_call(b, i + 1, i == 0 ? arguments : 0);
        } else {
            put_constant(b, 8);
        }
        close_tree(b, tree, i < 2 ? parameters : 0);
    }
    close_block(b, layout);
}

/* One type that is an operation on two constants; 131 aligns the one to the other. */
void limit_operation(struct limit_bytes *b, uint64_t kind, uint64_t left, uint64_t right)
{
    b->len = 0;
    const size_t layout = open_block(b, 160);
    put(b, 1, 2);
    const size_t tree = open_tree(b, 0);
    const size_t node = open_node(b, kind);
    if (kind == 131)
        put(b, right, 8);
    put_constant(b, left);
    if (kind != 131)
        put_constant(b, right);
    close_block(b, node);
    close_tree(b, tree, 0);
    close_block(b, layout);
}

/* Values whose names are stretched, the first `longer` of them by one more. */
static void put_values(struct limit_bytes *b, int values, size_t more, int longer)
{
    const size_t at = open_block(b, 192);
    put(b, (uint64_t)values, 2);
    for (int i = 0; i < values; i++) {
        put_name(b, "v", i, more + (i < longer));
        put(b, (uint64_t)i, 8);
    }
    close_block(b, at);
}

void limit_values(struct limit_bytes *b, int values)
{
    b->len = 0;
    put_values(b, values, 0, 0);
}

/* A list of so many values that has so many bytes: 8, and for each value 16 and by how much its name is stretched. */
struct limit_list limit_list_of(int values, size_t bytes)
{
    const size_t stretched = bytes - 8 - 16 * (size_t)values;
    const struct limit_list list = {values, stretched / (size_t)values, (int)(stretched % (size_t)values)};
    return list;
}

void limit_listed(struct limit_bytes *b, struct limit_list list)
{
    b->len = 0;
    put_values(b, list.values, list.more, list.longer);
}

static void put_asked(struct limit_bytes *b, struct limit_list list, int value)
{
    const size_t at = open_node(b, 130);
    put_name(b, "v", value, list.more + (value < list.longer));
    put(b, 0, 1);
    close_block(b, at);
}

/* One type that asks for so many values of the list, the last first: a sum of at most 64 fields. */
void limit_asked(struct limit_bytes *b, struct limit_list list, int fields)
{
    size_t sums[64];
    b->len = 0;
    const size_t layout = open_block(b, 160);
    put(b, 1, 2);
    const size_t tree = open_tree(b, 0);
    for (int i = 1; i < fields; i++)
        sums[i] = open_node(b, 134);
    put_asked(b, list, list.values - 1);
    for (int i = 1; i < fields; i++) {
        put_asked(b, list, list.values - 1 - i);
        close_block(b, sums[fields - i]);
    }
    close_tree(b, tree, 0);
    close_block(b, layout);
}

/* A run behind what is there. It has 30 bytes, and for each value 16 and by how much its name is stretched. */
void limit_add_run(struct limit_bytes *b, int values, size_t more, int longer)
{
    const size_t run = open_block(b, 193);
    put_name(b, "T", 0, 0);
    put(b, 100, 8);
    put_values(b, values, more, longer);
    close_block(b, run);
}

/* Bytes behind what is there, such as the length of a run that is cut off. */
void limit_add_bytes(struct limit_bytes *b, uint64_t value, size_t bytes)
{
    put(b, value, bytes);
}
