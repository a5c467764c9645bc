/*
 * Writes blocks of values (kind 192). It takes no memory but the caller's, and neither calls nor needs the archive. What it writes is
 * not proved; the tests hold it against the proved reader.
 *
 * Licence: Apache-2.0.
 */
#include "ciztarmo.h"

/* Limits of document 01: values in a block, bytes in a name. */
#define MOST_VALUES 512
#define LONGEST_NAME 255

#define VALUES_KIND 192
/* Length field, kind and count; and what a value has beside its name: the name's length and the number. */
#define HEAD_BYTES 8
#define VALUE_BYTES 10

/* The length of a name, or one more than the longest; a name is not read further than that. */
static size_t name_length(const char *name)
{
    size_t n = 0;
    while (n <= LONGEST_NAME && name[n] != 0)
        n++;
    return n;
}

/* Characters of several bytes as RFC 3629, section 4, has them: the first byte lies in one range, the second in another, and all
 * behind it from 0x80 to 0xBF. */
static const struct form {
    uint8_t first, first_to, second, second_to, bytes;
} FORMS[] = {
    {0xC2, 0xDF, 0x80, 0xBF, 2}, {0xE0, 0xE0, 0xA0, 0xBF, 3}, {0xE1, 0xEC, 0x80, 0xBF, 3}, {0xED, 0xED, 0x80, 0x9F, 3},
    {0xEE, 0xEF, 0x80, 0xBF, 3}, {0xF0, 0xF0, 0x90, 0xBF, 4}, {0xF1, 0xF3, 0x80, 0xBF, 4}, {0xF4, 0xF4, 0x80, 0x8F, 4},
};

/* How many bytes the character has that begins here, or 0 if none does. The zero that ends a name belongs to none, so that nothing
 * behind it is read. */
static size_t character(const uint8_t *c)
{
    size_t n;
    if (c[0] < 0x80)
        return c[0] >= 0x20 && c[0] != 0x7F;
    for (const struct form *f = FORMS; f < FORMS + sizeof FORMS / sizeof FORMS[0]; f++)
        if (c[0] >= f->first && c[0] <= f->first_to) {
            if (c[1] < f->second || c[1] > f->second_to)
                return 0;
            for (n = 2; n < f->bytes; n++)
                if (c[n] < 0x80 || c[n] > 0xBF)
                    return 0;
            return n;
        }
    return 0;
}

static int is_name(const char *name)
{
    const uint8_t *at = (const uint8_t *)name;
    size_t n = 1;
    if (name == NULL || name_length(name) > LONGEST_NAME)
        return 0;
    for (; *at != 0 && n != 0; at += n)
        n = character(at);
    return n != 0;
}

/* Below 0, 0 or above 0 as a stands before b, is b or stands behind it: by bytes, which have no sign whatever char has. */
static int compare(const char *a, const char *b)
{
    while (*a != 0 && *a == *b)
        a++, b++;
    return (uint8_t)*a - (uint8_t)*b;
}

/* The first value whose name is none (3), or count. */
static size_t first_bad_name(const struct ciztarmo_value *values, size_t count)
{
    size_t i = 0;
    while (i < count && is_name(values[i].name))
        i++;
    return i;
}

static int ascend(const struct ciztarmo_value *values, size_t count)
{
    size_t i = 1;
    while (i < count && compare(values[i - 1].name, values[i].name) < 0)
        i++;
    return i >= count;
}

/* The first that has a name which a value before has too (6), or count. Names that ascend are not compared again. */
static size_t first_twice(const struct ciztarmo_value *values, size_t count)
{
    if (ascend(values, count))
        return count;
    for (size_t i = 1; i < count; i++)
        for (size_t before = 0; before < i; before++)
            if (compare(values[before].name, values[i].name) == 0)
                return i;
    return count;
}

/* The value that stands behind `last` in the order of names; the first of all if that is NULL. There is one. */
static const struct ciztarmo_value *behind(const struct ciztarmo_value *values, size_t count, const char *last)
{
    const struct ciztarmo_value *found = NULL;
    for (size_t i = 0; i < count; i++)
        if ((last == NULL || compare(values[i].name, last) > 0) && (found == NULL || compare(values[i].name, found->name) < 0))
            found = &values[i];
    return found;
}

static uint8_t *put(uint8_t *at, uint64_t number, int bytes)
{
    for (; bytes > 0; bytes--, number >>= 8)
        *at++ = (uint8_t)number;
    return at;
}

static uint8_t *put_value(uint8_t *at, const struct ciztarmo_value *value)
{
    at = put(at, name_length(value->name), 2);
    for (const char *c = value->name; *c != 0; c++)
        *at++ = (uint8_t)*c;
    return put(at, value->number, 8);
}

static void put_values(uint8_t *out, size_t length, const struct ciztarmo_value *values, size_t count)
{
    const int as_given = ascend(values, count);
    const struct ciztarmo_value *last = NULL;
    out = put(put(put(out, length - 4, 4), VALUES_KIND, 2), count, 2);
    for (size_t i = 0; i < count; i++) {
        last = as_given ? &values[i] : behind(values, count, last == NULL ? NULL : last->name);
        out = put_value(out, last);
    }
}

static void tell(uint64_t answer[4], uint64_t number, uint64_t place, uint64_t value)
{
    answer[CIZTARMO_NUMBER] = number;
    answer[CIZTARMO_PLACE] = place;
    answer[CIZTARMO_OFFSET] = 0;
    answer[CIZTARMO_VALUE] = value;
}

void ciztarmo_write_values(const struct ciztarmo_value *values, size_t count, uint8_t *out, size_t out_len, uint64_t answer[4])
{
    size_t length = HEAD_BYTES, place;
    if (count > MOST_VALUES) {
        tell(answer, CIZTARMO_ABOVE_LIMIT, CIZTARMO_NO_PLACE, 0);
        return;
    }
    if ((place = first_bad_name(values, count)) < count) {
        tell(answer, CIZTARMO_INVALID_NAME, place, 0);
        return;
    }
    if ((place = first_twice(values, count)) < count) {
        tell(answer, CIZTARMO_NAMES_OUT_OF_ORDER, place, 0);
        return;
    }
    for (size_t i = 0; i < count; i++)
        length += VALUE_BYTES + name_length(values[i].name);
    if (length > CIZTARMO_MAX_INPUT)
        tell(answer, CIZTARMO_INPUT_TOO_LONG, CIZTARMO_NO_PLACE, length);
    else if (length > out_len)
        tell(answer, CIZTARMO_BUFFER_TOO_SMALL, CIZTARMO_NO_PLACE, length);
    else {
        put_values(out, length, values, count);
        tell(answer, CIZTARMO_ACCEPTED, CIZTARMO_NO_PLACE, length);
    }
}
