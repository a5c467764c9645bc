/* The form of an input, read and written. */
#include "attack.h"

#include <string.h>

uint64_t attack_get(const uint8_t *at, size_t bytes)
{
    uint64_t value = 0;
    for (size_t i = bytes; i > 0; i--)
        value = value << 8 | at[i - 1];
    return value;
}

void attack_put(uint8_t *at, uint64_t value, size_t bytes)
{
    for (size_t i = 0; i < bytes; i++)
        at[i] = (uint8_t)(value >> 8 * i);
}

/* The next part: `len` bytes or as many as there are, cut to ATTACK_PART. */
static struct attack_bytes part(const uint8_t **at, size_t *left, uint64_t len)
{
    const size_t taken = len < *left ? (size_t)len : *left;
    const struct attack_bytes bytes = {*at, taken < ATTACK_PART ? taken : ATTACK_PART};
    *at += taken;
    *left -= taken;
    return bytes;
}

int attack_parse(const uint8_t *data, size_t size, struct attack_input *in)
{
    if (size < ATTACK_HEADER)
        return 0;
    in->what = data[0] % ATTACK_WHATS;
    in->words = data[1];
    in->room = data[2];
    in->dirty = data[3];
    in->pad = data[4];
    in->length = attack_get(data + 6, 8);
    const uint8_t *at = data + ATTACK_HEADER;
    size_t left = size - ATTACK_HEADER;
    in->first = part(&at, &left, attack_get(data + 14, 4));
    in->name = part(&at, &left, attack_get(data + 18, 2));
    in->second = part(&at, &left, left);
    return 1;
}

int attack_takes_runs(uint8_t what)
{
    return what == ATTACK_VALIDATE_RUNS || what == ATTACK_BUILD_RUNS;
}

int attack_takes_run(uint8_t what)
{
    return what == ATTACK_VALIDATE_RUN || what == ATTACK_LENGTH_OF_RUN || what == ATTACK_BUILD_RUN || attack_takes_runs(what);
}

static uint8_t *append(uint8_t *at, struct attack_bytes bytes)
{
    if (bytes.len > 0)
        memcpy(at, bytes.at, bytes.len);
    return at + bytes.len;
}

size_t attack_write(const struct attack_input *in, uint8_t *out, size_t cap)
{
    const size_t size = ATTACK_HEADER + in->first.len + in->name.len + in->second.len;
    if (size > cap)
        return 0;
    memset(out, 0, ATTACK_HEADER);
    out[0] = in->what;
    out[1] = in->words;
    out[2] = in->room;
    out[3] = in->dirty;
    out[4] = in->pad;
    attack_put(out + 6, in->length, 8);
    attack_put(out + 14, in->first.len, 4);
    attack_put(out + 18, in->name.len, 2);
    append(append(append(out + ATTACK_HEADER, in->first), in->name), in->second);
    return size;
}
