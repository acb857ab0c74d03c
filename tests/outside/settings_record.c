/* Records and geometries: see settings_record.h. */
#include "settings_record.h"

#include "test_world.h"

#include <string.h>

const size_t field_at[FIELDS + 1] = {0, 4, 9, 14, 19, 24, 31, 36};

const char *const reason_name[REASONS] = {
    "P = 0", "P > 64", "W = 0", "W > 512", "D < 2", "T < 2", "D+T > 1024", "L = 0",
    "L > (D-1)P-1", "M > (T-1)P-1", "C = 0", "C > 4096"};

static void put(struct settings_call *c, uint32_t number, size_t bytes)
{
    for (size_t i = bytes; i > 0; i--)
        c->bytes[c->n++] = (uint8_t)(number >> 8 * (i - 1));
}

void record_of(struct settings_call *c, const uint32_t g[SIX])
{
    c->which = TO_READ;
    c->lent = SIX;
    c->null = false;
    c->n = 0;
    for (uint32_t i = 0; i < FIELDS; i++) {
        size_t bytes = field_at[i + 1] - field_at[i] - HEAD_BYTES;
        put(c, i + 1, 1);
        put(c, (uint32_t)bytes, 2);
        put(c, i == 0 ? 1 : g[i - 1], bytes);
    }
}

void record_add(struct settings_call *c, uint32_t tag, size_t length, size_t given)
{
    REQUIRE(c->n + HEAD_BYTES + given <= MOST_BYTES);
    put(c, tag, 1);
    put(c, (uint32_t)length, 2);
    memset(c->bytes + c->n, (int)(tag + length), given);
    c->n += given;
}

void record_replace(struct settings_call *c, size_t at, size_t n, const uint8_t *with,
                    size_t with_n)
{
    REQUIRE(at + n <= c->n && c->n - n + with_n <= MOST_BYTES);
    memmove(c->bytes + at + with_n, c->bytes + at + n, c->n - at - n);
    if (with_n > 0)
        memcpy(c->bytes + at, with, with_n);
    c->n = c->n - n + with_n;
}

void write_of(struct settings_call *c, const uint32_t g[SIX])
{
    c->which = TO_WRITE;
    c->lent = RECORD_BYTES;
    c->null = false;
    c->n = 0;
    memcpy(c->g, g, sizeof c->g);
}

uint32_t reasons_of(const uint32_t g[SIX])
{
    const uint64_t p = g[0], w = g[1], d = g[2], t = g[3], l = g[4], c = g[5];
    const bool holds[REASONS] = {
        [NO_PAGE] = p == 0,
        [MANY_PAGES] = p > 64,
        [NO_WORD] = w == 0,
        [MANY_WORDS] = w > 512,
        [FEW_DATA] = d < 2,
        [FEW_TRANSLATION] = t < 2,
        [MANY_BLOCKS] = d + t > 1024,
        [NO_LOGICAL] = l == 0,
        [MANY_LOGICAL] = p > 0 && d > 1 && l + 1 > (d - 1) * p,
        [MANY_MAPS] = p > 0 && w > 0 && t > 1 && (l + w - 1) / w + 1 > (t - 1) * p,
        [NO_ENTRY] = c == 0,
        [MANY_ENTRIES] = c > 4096,
    };
    uint32_t all = 0;
    for (int i = 0; i < REASONS; i++)
        all |= (uint32_t)holds[i] << i;
    return all;
}

/* From low to high, often one of the two. */
static uint32_t any_of(uint32_t low, uint32_t high, uint64_t *seed)
{
    switch (random_below(seed, 8)) {
    case 0: return low;
    case 1: return high;
    default: return low + random_below(seed, high - low + 1);
    }
}

void geometry_any(uint32_t g[SIX], uint64_t *seed)
{
    g[2] = any_of(2, 1022, seed);
    g[3] = any_of(2, 1024 - g[2], seed);
    g[0] = any_of(g[2] == 2 || g[3] == 2 ? 2 : 1, 64, seed); /* so that a logical page fits */
    g[1] = any_of(1, 512, seed);
    uint32_t pages = (g[2] - 1) * g[0] - 1, entered = ((g[3] - 1) * g[0] - 1) * g[1];
    g[4] = any_of(1, pages < entered ? pages : entered, seed);
    g[5] = any_of(1, 4096, seed);
}

void geometry_spoil(uint32_t g[SIX], uint64_t *seed)
{
    static const uint32_t limit[SIX] = {64, 512, 1022, 1022, 65406, 4096};
    uint32_t i = random_below(seed, SIX);
    switch (random_below(seed, 10)) {
    case 0: g[i] = 0; break;
    case 1: g[i]++; break;
    case 2: g[i]--; break;
    case 3: g[i] = NONE - random_below(seed, 2); break;
    case 4: g[i] = (uint32_t)random_64(seed); break;
    case 5: g[i] |= UINT32_C(1) << random_below(seed, 32); break;
    case 6: g[i] = limit[i] + random_below(seed, 2); break;
    case 7: g[i] = random_below(seed, 65536); break;
    case 8: g[4] = (g[2] - 1) * g[0] - random_below(seed, 2); break;
    default: g[4] = ((g[3] - 1) * g[0] - 1) * g[1] + random_below(seed, 2); break;
    }
}
