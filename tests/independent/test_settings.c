/*
 * Settings records held to the second reader: small damage of every kind to good
 * ones, what may come after tag 7, random bytes, and the corners of the geometry.
 */
#include "test_settings.h"

#include <stdio.h>
#include <string.h>

/* A field of random bytes, put at n; the new end. */
static size_t append(uint8_t *bytes, size_t n, uint32_t tag, uint32_t length, uint64_t *seed)
{
    bytes[n++] = (uint8_t)tag;
    bytes[n++] = (uint8_t)(length / 256);
    bytes[n++] = (uint8_t)(length % 256);
    for (uint32_t i = 0; i < length; i++)
        bytes[n++] = (uint8_t)random_below(seed, 256);
    return n;
}

static uint32_t higher_tag(uint64_t *seed)
{
    static const uint32_t edges[] = {8, 9, 254, 255};
    return random_below(seed, 2) ? edges[random_below(seed, 4)] : 8 + random_below(seed, 248);
}

/*
 * On a copy of its own: gcc 12.2 drops the store that puts a byte back at the end
 * of such a loop (-fno-tree-dse keeps it), and the damage then piles up.
 */
static void changed(const uint8_t *good, size_t n, size_t k, uint32_t value,
                    struct coverage *seen)
{
    uint8_t bytes[OWN + 32];
    memcpy(bytes, good, n);
    bytes[k] = (uint8_t)value;
    compare_record("byte changed", bytes, n, seen);
}

/*
 * Every byte changed to every value.  Seven of them are tags, fourteen belong to
 * lengths and one is the version, so the answers can be counted beforehand.
 */
static void every_byte(const uint8_t good[OWN], struct coverage *seen)
{
    const struct coverage before = *seen;
    for (size_t k = 0; k < OWN; k++)
        for (uint32_t value = 0; value < 256; value++)
            changed(good, OWN, k, value, seen);
    REQUIRE(seen->records[1] == before.records[1]);
    REQUIRE(seen->records[2] == before.records[2] + 7 * 255);
    REQUIRE(seen->records[3] == before.records[3] + 14 * 255);
    REQUIRE(seen->records[4] == before.records[4] + 255);
    REQUIRE(seen->records[5] == before.records[5]);
}

/* Every prefix of a record with two fields after its own, and bytes of it changed. */
static void longer_record(const uint8_t good[OWN], uint64_t *seed, struct coverage *seen)
{
    uint8_t bytes[OWN + 32];
    memcpy(bytes, good, OWN);
    size_t n = append(bytes, OWN, higher_tag(seed), 5, seed);
    n = append(bytes, n, 8, 2, seed);
    for (size_t k = 0; k <= n; k++)
        compare_record("prefix", bytes, k, seen);
    for (size_t k = 0; k < n; k++)
        for (uint32_t value = 0; value < 256; value += k < OWN ? 16 : 1)
            changed(bytes, n, k, value, seen);
}

/* Puts field `which` of the good record at n; the new end. */
static size_t put(uint8_t *bytes, size_t n, const uint8_t good[OWN], size_t which)
{
    size_t size = starts[which + 1] - starts[which];
    memcpy(bytes + n, good + starts[which], size);
    return n + size;
}

/* Every pair of fields swapped; each field left out, doubled, or once more at the end. */
static void fields_moved(const uint8_t good[OWN], struct coverage *seen)
{
    uint8_t bytes[2 * OWN];
    for (size_t a = 0; a < FIELDS; a++)
        for (size_t b = a + 1; b < FIELDS; b++) {
            size_t n = 0;
            for (size_t i = 0; i < FIELDS; i++)
                n = put(bytes, n, good, i == a ? b : i == b ? a : i);
            compare_record("fields swapped", bytes, n, seen);
        }
    for (size_t a = 0; a < FIELDS; a++)
        for (size_t times = 0; times <= 2; times += 2) {
            size_t n = 0;
            for (size_t i = 0; i < FIELDS; i++)
                for (size_t k = 0; k < (i == a ? times : 1); k++)
                    n = put(bytes, n, good, i);
            compare_record("field left out or doubled", bytes, n, seen);
        }
    for (size_t a = 0; a < FIELDS; a++) {
        memcpy(bytes, good, OWN);
        compare_record("field once more", bytes, put(bytes, OWN, good, a), seen);
    }
}

/* Cut at each place; of a long field at those near its ends and some between. */
static void compare_cuts(const uint8_t *bytes, size_t from, size_t n, struct coverage *seen)
{
    enum { ENDS = 20, STRIDE = 9973 };
    for (size_t k = from; k <= n;) {
        compare_record("cut", bytes, k, seen);
        bool between = k - from > 600 && n - k > ENDS;
        k += !between ? 1 : n - k > STRIDE + ENDS ? STRIDE : n - k - ENDS;
    }
}

/* One field after tag 7, then one more of a lower tag, the same one, or a low one. */
static void one_after(const uint8_t good[OWN], uint32_t length, uint64_t *seed,
                      struct coverage *seen)
{
    static uint8_t bytes[MOST];
    uint32_t tag = higher_tag(seed);
    memcpy(bytes, good, OWN);
    size_t one = append(bytes, OWN, tag, length, seed);
    compare_cuts(bytes, OWN, one, seen);
    size_t two = append(bytes, one, tag, length < 600 ? length : 1, seed);
    compare_cuts(bytes, one, two, seen);
    for (uint32_t next = tag; next-- > 0 && tag - next < 12;)
        compare_record("falling tags", bytes, append(bytes, one, next, next % 4, seed), seen);
    for (uint32_t low = 0; low < 10; low++) {
        compare_record("low tag after", bytes, append(bytes, one, low, low % 3, seed), seen);
        bytes[OWN] = (uint8_t)low;
        compare_record("low tag first", bytes, one, seen);
        bytes[OWN] = (uint8_t)tag;
    }
}

/* Up to six short fields, or three of any length; now and then a low tag or a cut. */
static size_t random_rest(uint8_t *bytes, uint64_t *seed)
{
    static const uint32_t lengths[] = {0, 1, 2, 255, 256, 257, 65535};
    bool any = random_below(seed, 64) == 0;
    size_t n = OWN;
    for (uint32_t left = random_below(seed, any ? 4 : 7); left > 0; left--) {
        uint32_t tag = random_below(seed, 24) ? higher_tag(seed) : random_below(seed, 8);
        n = append(bytes, n, tag, any ? lengths[random_below(seed, 7)] : random_below(seed, 4),
                   seed);
    }
    return random_below(seed, 8) ? n : n - random_below(seed, (uint32_t)(n - OWN) + 1);
}

/* A byte set, nudged, put in, taken out or exchanged, or the end cut off; the new end. */
static size_t mutate(uint8_t *bytes, size_t n, uint64_t *seed)
{
    uint32_t reach = n < 64 ? (uint32_t)n : 64;
    uint32_t k = random_below(seed, reach), other = random_below(seed, reach);
    uint8_t old = bytes[k];
    switch (random_below(seed, 8)) {
    case 0: bytes[k] = (uint8_t)random_below(seed, 256); return n;
    case 1: bytes[k] = (uint8_t)(old + 1); return n;
    case 2: bytes[k] = (uint8_t)(old - 1); return n;
    case 3: bytes[k] ^= (uint8_t)(1u << random_below(seed, 8)); return n;
    case 4:
        memmove(bytes + k + 1, bytes + k, n - k);
        return n + 1;
    case 5:
        memmove(bytes + k, bytes + k + 1, n - k - 1);
        return n - 1;
    case 6:
        bytes[k] = bytes[other];
        bytes[other] = old;
        return n;
    default: return random_below(seed, 4) ? n : k + 1;
    }
}

static void random_damage(const uint8_t good[OWN], uint64_t *seed, struct coverage *seen)
{
    static uint8_t bytes[MOST];
    memcpy(bytes, good, OWN);
    size_t n = random_rest(bytes, seed);
    compare_record("random rest", bytes, n, seen);
    for (uint32_t left = 1 + random_below(seed, 4); left > 0 && n > 1; left--)
        n = mutate(bytes, n, seed);
    compare_record("random mutation", bytes, n, seen);
    n = random_below(seed, 81);
    uint32_t most = random_below(seed, 2) ? 256 : 10;
    for (size_t i = 0; i < n; i++)
        bytes[i] = (uint8_t)random_below(seed, most);
    compare_record("random bytes", bytes, n, seen);
    memcpy(bytes, good, random_below(seed, OWN));
    compare_record("random end", bytes, n, seen);
}

/* One corner to the reader and the writer; then with numbers too big for two bytes. */
static void corner(const uint32_t g[6], struct coverage *seen)
{
    uint8_t bytes[OWN];
    spell(g, bytes);
    compare_record("corner", bytes, OWN, seen);
    compare_written(g, seen);
    for (int i = 0; i < 6 && accepted(g); i++) {
        uint32_t big[6];
        memcpy(big, g, sizeof big);
        big[i] += 65536;
        REQUIRE(!accepted(big));
        compare_written(big, seen);
        big[i] = g[i] | UINT32_C(0x80000000);
        compare_written(big, seen);
    }
}

/* L at both of its bounds, and C, for the other four numbers. */
static void corners_of(uint32_t p, uint32_t w, uint32_t d, uint32_t t, struct coverage *seen)
{
    static const uint32_t cs[] = {0, 1, 2, 4095, 4096, 4097, 65535};
    uint32_t most_l = (d - 1) * p - 1, most_m = (t - 1) * p - 1;
    const uint32_t ls[] = {0,          1,     2,     most_l - 1,     most_l,     most_l + 1,
                           most_m * w, 65535, 65536, most_m * w + 1, UINT32_MAX, UINT32_C(1) << 24};
    for (size_t i = 0; i < sizeof ls / sizeof *ls; i++)
        for (size_t k = 0; k < sizeof cs / sizeof *cs; k++) {
            const uint32_t g[6] = {p, w, d, t, ls[i], cs[k]};
            corner(g, seen);
        }
}

static void all_corners(struct coverage *seen)
{
    static const uint32_t ps[] = {0, 1, 2, 64, 65, 256, 65535};
    static const uint32_t ws[] = {0, 1, 2, 256, 512, 513, 65535};
    static const uint32_t ds[] = {0, 1, 2, 3, 512, 1021, 1022, 1023, 65535};
    for (size_t p = 0; p < sizeof ps / sizeof *ps; p++)
        for (size_t w = 0; w < sizeof ws / sizeof *ws; w++)
            for (size_t d = 0; d < sizeof ds / sizeof *ds; d++) {
                const uint32_t ts[] = {0, 1, 2, 3, (1024 - ds[d]) % 65536, (1025 - ds[d]) % 65536};
                for (size_t t = 0; t < sizeof ts / sizeof *ts; t++)
                    corners_of(ps[p], ws[w], ds[d], ts[t], seen);
            }
}

void test_settings(uint64_t seed, uint32_t records, struct coverage *seen)
{
    static const uint32_t lengths[] = {0,   1,   2,   3,   8,   254,   255,
                                       256, 257, 258, 511, 512, 65534, 65535};
    marked_records(seen);
    all_corners(seen);
    for (uint32_t i = 0; i < records; i++) {
        uint32_t g[6];
        uint8_t good[OWN];
        do
            edge_geometry(g, &seed);
        while (!accepted(g));
        spell(g, good);
        snprintf(test_context, sizeof test_context, "settings, record %u: %u %u %u %u %u %u", i,
                 g[0], g[1], g[2], g[3], g[4], g[5]);
        wrong_places(good, g);
        every_byte(good, seen);
        longer_record(good, &seed, seen);
        fields_moved(good, seen);
        for (size_t k = 0; k < sizeof lengths / sizeof *lengths; k++)
            one_after(good, lengths[k], &seed, seen);
        for (uint32_t k = 0; k < 1500; k++)
            random_damage(good, &seed, seen);
    }
}
