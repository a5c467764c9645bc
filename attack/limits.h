/* Inputs at the limits of document 01, for seeds.c. */
#ifndef ATTACK_LIMITS_H
#define ATTACK_LIMITS_H

#include "attack.h"

struct limit_bytes {
    size_t len;
    uint8_t at[ATTACK_PART];
};

/* How names are made: the type's (its letters, and by how much it is stretched), its owner's, its path's, and those of segments. */
struct limit_names {
    const char *name;
    size_t stretched, owner, path, segment;
    int segments;
    int payloads; /* 0: none; 1: a short path and one that begins with the owner; 2: two that begin with the owner */
};

/* A list of values whose names are stretched, the first `longer` of them by one more. */
struct limit_list {
    int values;
    size_t more;
    int longer;
};

void limit_types(struct limit_bytes *b, int types, size_t more, int longer);
void limit_fields(struct limit_bytes *b, uint64_t kind, int fields, int owners, int paths);
void limit_registry(struct limit_bytes *b, int full, uint64_t kind, int paths);
void limit_long(struct limit_bytes *b, uint64_t kind, int root, const struct limit_names *n);
void limit_depth_set(struct limit_bytes *b, int open);
void limit_depth_layout(struct limit_bytes *b, int open);
void limit_calls(struct limit_bytes *b, int types, int arguments, int parameters);
void limit_operation(struct limit_bytes *b, uint64_t kind, uint64_t left, uint64_t right);
void limit_values(struct limit_bytes *b, int values);
struct limit_list limit_list_of(int values, size_t bytes);
void limit_listed(struct limit_bytes *b, struct limit_list list);
void limit_asked(struct limit_bytes *b, struct limit_list list, int fields);
void limit_add_run(struct limit_bytes *b, int values, size_t more, int longer);
void limit_add_bytes(struct limit_bytes *b, uint64_t value, size_t bytes);

#endif
