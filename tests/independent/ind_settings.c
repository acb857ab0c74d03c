/*
 * The settings record: fields of a tag, a length and a value, the version's
 * first, then those that the version's row of the table names.  "The reader goes
 * field by field and gives the first refusal that applies."
 */
#include "independent.h"

#include "ind_internal.h"

#include <string.h>

/* One byte of tag and two of length go before the value. */
enum { LENGTH_AT = 1, LENGTH_BYTES = 2, VALUE_AT = 3 };

struct field {
    uint8_t tag, bytes; /* bytes of its value: one, two or four */
};

struct version {
    uint8_t number;
    bool higher_tags; /* whole fields of higher tags may follow, and are skipped */
    uint8_t fields_n;
    struct field fields[IND_SETTINGS_NUMBERS]; /* in the order of the numbers */
};

static const struct field version_field = {1, 1};

static const struct version versions[] = {
    {1, true, 6, {{2, 2}, {3, 2}, {4, 2}, {5, 2}, {6, 4}, {7, 2}}},
};

/* Spelled out for each size, so that a known one is a single load. */
static inline uint32_t load(const uint8_t *at, size_t bytes)
{
    if (bytes == 1)
        return at[0];
    if (bytes == 2)
        return (uint32_t)at[0] << 8 | at[1];
    return (uint32_t)at[0] << 24 | (uint32_t)at[1] << 16 | (uint32_t)at[2] << 8 | at[3];
}

/* The number fits: every one of an accepted geometry does. */
static inline void store(uint8_t *at, size_t bytes, uint32_t number)
{
    if (bytes == 4) {
        *at++ = (uint8_t)(number >> 24);
        *at++ = (uint8_t)(number >> 16);
    }
    if (bytes >= 2)
        *at++ = (uint8_t)(number >> 8);
    *at = (uint8_t)number;
}

static inline size_t size_of(struct field f)
{
    return (size_t)VALUE_AT + f.bytes;
}

/* NULL if there is no such version. */
static inline const struct version *find_version(uint32_t number)
{
    for (size_t i = 0; i < sizeof versions / sizeof *versions; i++)
        if (versions[i].number == number)
            return &versions[i];
    return NULL;
}

/* *at goes past the field, or to the place of the refusal. */
static inline uint32_t take_field(const uint8_t *bytes, size_t n, struct field f, size_t *at,
                                  uint32_t *number)
{
    if (n - *at < size_of(f))
        return IND_SETTINGS_SHORT;
    const uint8_t *field = bytes + *at;
    if (field[0] != f.tag)
        return IND_SETTINGS_TAG;
    if (load(field + LENGTH_AT, LENGTH_BYTES) != f.bytes) {
        *at += LENGTH_AT;
        return IND_SETTINGS_LENGTH;
    }
    *number = load(field + VALUE_AT, f.bytes);
    *at += size_of(f);
    return IND_SETTINGS_DONE;
}

/* What comes after the last field of a version; *at stops where a field is wrong. */
static inline uint32_t skip_rest(const uint8_t *bytes, size_t n, const struct version *v,
                                 size_t *at)
{
    uint8_t last = v->fields[v->fields_n - 1].tag;
    while (*at != n) {
        size_t left = n - *at;
        if (!v->higher_tags || left < VALUE_AT || bytes[*at] <= last)
            return IND_SETTINGS_AFTER;
        size_t value = load(bytes + *at + LENGTH_AT, LENGTH_BYTES);
        if (left - VALUE_AT < value)
            return IND_SETTINGS_AFTER;
        *at += VALUE_AT + value;
    }
    return IND_SETTINGS_DONE;
}

/* All but the geometry; numbers of fields that aren't reached stay. */
static inline uint32_t walk(const uint8_t *bytes, size_t n, uint32_t *numbers, size_t *at)
{
    uint32_t number;
    uint32_t answer = take_field(bytes, n, version_field, at, &number);
    if (answer != IND_SETTINGS_DONE)
        return answer;
    const struct version *v = find_version(number);
    if (v == NULL) {
        *at -= version_field.bytes;
        return IND_SETTINGS_VERSION;
    }
    for (size_t i = 0; i < v->fields_n; i++) {
        answer = take_field(bytes, n, v->fields[i], at, &numbers[i]);
        if (answer != IND_SETTINGS_DONE)
            return answer;
    }
    return skip_rest(bytes, n, v, at);
}

static inline uint32_t judge(const uint8_t *bytes, size_t n, uint32_t *numbers, size_t *where)
{
    size_t at = 0;
    memset(numbers, 0, IND_SETTINGS_NUMBERS * sizeof *numbers);
    uint32_t answer = walk(bytes, n, numbers, &at);
    *where = answer == IND_SETTINGS_DONE ? 0 : at;
    if (answer == IND_SETTINGS_DONE && !ind_accepted(numbers[0], numbers[1], numbers[2],
                                                     numbers[3], numbers[4], numbers[5]))
        return IND_SETTINGS_GEOMETRY;
    return answer;
}

uint32_t ind_settings_where(const uint8_t *bytes, size_t bytes_n,
                            uint32_t numbers[IND_SETTINGS_NUMBERS], size_t *where)
{
    return judge(bytes, bytes_n, numbers, where);
}

uint32_t ind_settings_read(const uint8_t *bytes, size_t bytes_n, uint32_t *numbers,
                           size_t numbers_n)
{
    size_t where;
    if (numbers_n != IND_SETTINGS_NUMBERS)
        return IND_SETTINGS_PLACE;
    uint32_t answer = judge(bytes, bytes_n, numbers, &where);
    if (answer != IND_SETTINGS_DONE)
        memset(numbers, 0, IND_SETTINGS_NUMBERS * sizeof *numbers);
    return answer;
}

static inline size_t put_field(uint8_t *place, size_t at, struct field f, uint32_t number)
{
    place[at] = f.tag;
    store(place + at + LENGTH_AT, LENGTH_BYTES, f.bytes);
    store(place + at + VALUE_AT, f.bytes, number);
    return at + size_of(f);
}

uint32_t ind_settings_write(uint32_t p, uint32_t w, uint32_t d, uint32_t t, uint32_t l, uint32_t c,
                            uint8_t *place, size_t place_n)
{
    const uint32_t numbers[IND_SETTINGS_NUMBERS] = {p, w, d, t, l, c};
    const struct version *v = &versions[0];
    if (!ind_accepted(p, w, d, t, l, c))
        return IND_SETTINGS_GEOMETRY;
    if (place_n != IND_SETTINGS_BYTES)
        return IND_SETTINGS_PLACE;
    size_t at = put_field(place, 0, version_field, v->number);
    for (size_t i = 0; i < v->fields_n; i++)
        at = put_field(place, at, v->fields[i], numbers[i]);
    return IND_SETTINGS_DONE;
}
