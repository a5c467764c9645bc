/* Damaged copies of a good input, for seeds.c. */
#ifndef ATTACK_DAMAGE_H
#define ATTACK_DAMAGE_H

#include "blocks.h"

typedef void damage_taker(const uint8_t *bytes, size_t len);

/* Hands over each damaged copy. `done` has the kinds that were damaged before, and gets those of this input. */
void damage_each(const uint8_t *input, size_t len, uint8_t done[256], damage_taker *take);

#endif
