/* Random cases of the settings record: see settings_cases.h. */
#include "settings_cases.h"

#include "test_world.h"

static void fill(uint8_t *bytes, size_t n, uint64_t *seed)
{
    for (size_t i = 0; i < n; i++)
        bytes[i] = (uint8_t)random_64(seed);
}

/* Bytes of any kind, but half the time the first are right. */
static void any_bytes(struct settings_call *c, uint64_t *seed)
{
    size_t right = random_below(seed, 2) ? random_below(seed, RECORD_BYTES + 1) : 0;
    c->n = right + random_below(seed, 48);
    fill(c->bytes + right, c->n - right, seed);
}

/* Mostly short fields of higher tags; now and then a long one, one that is cut, or of a low tag. */
static void add_tail(struct settings_call *c, uint64_t *seed)
{
    uint32_t rare = random_below(seed, 4096);
    size_t length = rare == 0 ? MOST_LENGTH - random_below(seed, 3) : random_below(seed, 6);
    if (rare > 0 && rare < 64)
        length = random_below(seed, rare < 4 ? 5000 : 600);
    uint32_t tag = 8 + random_below(seed, random_below(seed, 2) ? 3 : 248);
    if (random_below(seed, 32) == 0)
        tag = random_below(seed, 9);
    bool cut = random_below(seed, 32) == 0;
    record_add(c, tag, length, cut ? random_below(seed, (uint32_t)length + 1) : length);
}

/* Mostly among the first fields, or at the end. */
static size_t any_place(const struct settings_call *c, uint64_t *seed)
{
    size_t most = c->n < 64 ? c->n : random_below(seed, 8) ? 64 : c->n;
    return random_below(seed, (uint32_t)most);
}

/* A field out of its place, once more, or over another. */
static void move_field(struct settings_call *c, uint64_t *seed)
{
    uint8_t field[8];
    uint32_t from = random_below(seed, FIELDS), to = random_below(seed, FIELDS);
    size_t bytes = field_at[from + 1] - field_at[from];
    if (c->n < RECORD_BYTES)
        return;
    for (size_t i = 0; i < bytes; i++)
        field[i] = c->bytes[field_at[from] + i];
    size_t over = random_below(seed, 2) ? field_at[to + 1] - field_at[to] : 0;
    record_replace(c, field_at[to], over, field, bytes);
}

/* A bit, a byte, a stretch or a field of the record changed, left out or put in. */
static void change(struct settings_call *c, uint64_t *seed)
{
    uint8_t put[4];
    if (c->n == 0)
        return;
    size_t at = any_place(c, seed), some = 1 + random_below(seed, 4);
    size_t out = some < c->n - at ? some : c->n - at;
    fill(put, sizeof put, seed);
    switch (random_below(seed, 11)) {
    case 0: c->bytes[at] = put[0]; break;
    case 1: c->bytes[at] ^= (uint8_t)(1 << random_below(seed, 8)); break;
    case 2: c->bytes[at]++; break;
    case 3: c->bytes[at]--; break;
    case 4: c->bytes[at] = c->bytes[any_place(c, seed)]; break;
    case 5: c->n = at; break;
    case 6: c->n--; break;
    case 7: record_replace(c, at, out, NULL, 0); break;
    case 8: record_replace(c, at, 0, put, some); break;
    case 9: record_replace(c, c->n, 0, put, some); break;
    default: move_field(c, seed); break;
    }
}

static void any_geometry(uint32_t g[SIX], uint64_t *seed)
{
    geometry_any(g, seed);
    if (random_below(seed, 4) == 0)
        geometry_spoil(g, seed);
}

void settings_random(struct settings_call *c, uint64_t seed, uint64_t number)
{
    uint64_t own = seed;
    uint32_t g[SIX];
    own = random_64(&own) + number;
    any_geometry(g, &own);
    uint32_t kind = random_below(&own, 16), odd = random_below(&own, 32);
    if (kind < 3) {
        write_of(c, g);
        if (odd < 4)
            c->lent = random_below(&own, 41);
    } else {
        record_of(c, g);
        if (kind == 3)
            any_bytes(c, &own);
        for (uint32_t tails = random_below(&own, 8); tails > 4 && kind > 3; tails--)
            add_tail(c, &own);
        for (uint32_t changes = random_below(&own, 5); changes > 1; changes--)
            change(c, &own);
        if (odd == 0)
            c->lent = random_below(&own, 10);
    }
    c->null = random_below(&own, 2);
}
