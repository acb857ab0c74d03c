/*
 * The settings record against a second reader, which knows the record only as a
 * row of bytes: see test_settings.h.
 */
#include "test_settings.h"

#include "independent.h"

#include <stdio.h>
#include <string.h>

/* Each byte of the record: itself, or NUMBER + i for a byte of number i. */
enum { NUMBER = 256, P = NUMBER, W, D, T, L, C };
static const uint32_t layout[OWN] = {
    1, 0, 1, 1,    2, 0, 2, P, P, 3, 0, 2, W, W,       4, 0, 2, D, D,
    5, 0, 2, T, T, 6, 0, 4, L, L, L, L,    7, 0, 2, C, C,
};
const size_t starts[FIELDS + 1] = {0, 4, 9, 14, 19, 24, 31, OWN};

struct verdict {
    uint32_t answer;
    size_t where;
    uint32_t numbers[6];
};

/* What comes after tag 7: the first byte of the field that is wrong, or n. */
static size_t naive_rest(const uint8_t *bytes, size_t n)
{
    enum { TAG, HIGH, LOW, VALUE } wanted = TAG;
    size_t start = OWN, length = 0;
    for (size_t i = OWN; i < n; i++) {
        if (wanted == TAG) {
            start = i;
            if (bytes[i] < 8)
                return start;
            wanted = HIGH;
        } else if (wanted == HIGH) {
            length = bytes[i];
            wanted = LOW;
        } else if (wanted == LOW) {
            length = length * 256 + bytes[i];
            wanted = length == 0 ? TAG : VALUE;
        } else if (--length == 0) {
            wanted = TAG;
        }
    }
    return wanted == TAG ? n : start;
}

/* The reader once more, byte by byte along the row. */
static struct verdict naive_settings(const uint8_t *bytes, size_t n)
{
    static const uint32_t refusal_at[4] = {2, 3, 3, 4}; /* tag, length, length, version */
    struct verdict v = {0};
    size_t field = 0;
    for (size_t i = 0; i < OWN; i++) {
        if (i == starts[field + 1])
            field++;
        size_t within = i - starts[field];
        v.where = within == 2 ? i - 1 : i;
        if (within == 0 && n < starts[field + 1]) {
            v.answer = 1;
            return v;
        }
        if (layout[i] >= NUMBER) {
            uint32_t *number = &v.numbers[layout[i] - NUMBER];
            *number = *number * 256 + bytes[i];
        } else if (bytes[i] != layout[i]) {
            v.answer = refusal_at[within];
            return v;
        }
    }
    v.where = naive_rest(bytes, n);
    if (v.where != n) {
        v.answer = 5;
        return v;
    }
    v.where = 0;
    v.answer = accepted(v.numbers) ? 0 : 6;
    return v;
}

void spell(const uint32_t numbers[6], uint8_t bytes[OWN])
{
    uint32_t rest[6];
    memcpy(rest, numbers, sizeof rest);
    for (size_t i = OWN; i-- > 0;) {
        bytes[i] = (uint8_t)layout[i];
        if (layout[i] >= NUMBER) {
            bytes[i] = (uint8_t)(rest[layout[i] - NUMBER] % 256);
            rest[layout[i] - NUMBER] /= 256;
        }
    }
}

static bool all_guard(const void *memory, size_t n)
{
    const uint8_t *bytes = memory;
    for (size_t i = 0; i < n; i++)
        if (bytes[i] != GUARD)
            return false;
    return true;
}

/* The reader's answer and numbers, and that it writes nothing beside them. */
static bool reads_alike(const uint8_t *bytes, size_t n, const struct verdict *v)
{
    static const uint32_t zeros[6] = {0};
    uint32_t out[8];
    memset(out, GUARD, sizeof out);
    if (ind_settings_read(bytes, n, out + 1, 6) != v->answer)
        return false;
    if (memcmp(out + 1, v->answer == 0 ? v->numbers : zeros, sizeof zeros) != 0)
        return false;
    return all_guard(out, 4) && all_guard(out + 7, 4);
}

static bool places_alike(const uint8_t *bytes, size_t n, const struct verdict *v)
{
    uint32_t out[8];
    size_t where = SIZE_MAX;
    memset(out, GUARD, sizeof out);
    if (ind_settings_where(bytes, n, out + 1, &where) != v->answer || where != v->where)
        return false;
    return memcmp(out + 1, v->numbers, sizeof v->numbers) == 0 && all_guard(out, 4) &&
           all_guard(out + 7, 4);
}

/* Writes the numbers; whether exactly the wanted 36 bytes come, or with NULL none. */
static bool writes(const uint32_t g[6], size_t n, uint32_t answer, const uint8_t *wanted)
{
    uint8_t out[2 * OWN];
    memset(out, GUARD, sizeof out);
    if (ind_settings_write(g[0], g[1], g[2], g[3], g[4], g[5], out + OWN / 2, n) != answer)
        return false;
    if (wanted == NULL)
        return all_guard(out, sizeof out);
    return memcmp(out + OWN / 2, wanted, OWN) == 0 && all_guard(out, OWN / 2) &&
           all_guard(out + OWN / 2 + OWN, OWN / 2);
}

static void describe(const char *part, const uint8_t *bytes, size_t n, const struct verdict *v)
{
    size_t used = (size_t)snprintf(test_context, sizeof test_context,
                                   "settings, %s: wanted %u at %zu for %zu bytes", part,
                                   v->answer, v->where, n);
    for (size_t i = 0; i < n && used + 4 < sizeof test_context; i++)
        used += (size_t)snprintf(test_context + used, 4, " %02x", bytes[i]);
}

void compare_record(const char *part, const uint8_t *from, size_t n, struct coverage *seen)
{
    static uint8_t memory[MOST];
    uint8_t *bytes = memory + MOST - n; /* so that the sanitised run sees a look past them */
    memcpy(bytes, from, n);
    struct verdict v = naive_settings(bytes, n);
    bool same = reads_alike(bytes, n, &v) && places_alike(bytes, n, &v) &&
                (v.answer != 0 || writes(v.numbers, OWN, 0, bytes));
    if (!same)
        describe(part, bytes, n, &v);
    REQUIRE(same);
    seen->records[v.answer]++;
}

void compare_written(const uint32_t g[6], struct coverage *seen)
{
    uint8_t bytes[OWN];
    bool good = accepted(g);
    spell(g, bytes);
    bool same = writes(g, OWN, good ? 0 : 6, good ? bytes : NULL);
    if (!same)
        describe("write", bytes, OWN, &(struct verdict){.answer = good ? 0 : 6});
    REQUIRE(same);
    seen->writes[good ? 0 : 1]++;
}

void marked_records(struct coverage *seen)
{
    static const uint8_t good[] = {1, 0, 1, 1, 2, 0, 2, 0, 2, 3, 0, 2, 0, 2, 4, 0, 2, 0, 3, 5,
                                   0, 2, 0, 3, 6, 0, 4, 0, 0, 0, 3, 7, 0, 2, 0, 1, 9, 0, 1, 7,
                                   8, 0, 0, 9, 0, 0};
    static const uint32_t numbers[6] = {2, 2, 3, 3, 3, 1};
    static const struct {
        size_t n, index;
        uint8_t value;
        uint32_t answer;
        size_t where;
    } cases[] = {
        {36, 0, 1, 0, 0},   {46, 0, 1, 0, 0},   {40, 0, 1, 0, 0},   {0, 0, 1, 1, 0},
        {1, 0, 9, 1, 0},    {3, 0, 9, 1, 0},    {4, 0, 9, 2, 0},    {4, 1, 1, 3, 1},
        {4, 2, 2, 3, 1},    {4, 3, 2, 4, 3},    {36, 3, 0, 4, 3},   {4, 0, 1, 1, 4},
        {8, 4, 9, 1, 4},    {9, 4, 9, 2, 4},    {36, 5, 1, 3, 5},   {30, 0, 1, 1, 24},
        {36, 26, 2, 3, 25}, {35, 0, 1, 1, 31},  {37, 0, 1, 5, 36},  {39, 0, 1, 5, 36},
        {40, 36, 7, 5, 36}, {43, 40, 7, 5, 40}, {40, 38, 2, 5, 36}, {45, 0, 1, 5, 43},
        {36, 8, 0, 6, 0},   {36, 30, 4, 6, 0},  {46, 27, 1, 6, 0},  {45, 8, 0, 5, 43},
    };
    for (size_t i = 0; i < sizeof cases / sizeof *cases; i++) {
        uint8_t bytes[sizeof good];
        memcpy(bytes, good, sizeof good);
        bytes[cases[i].index] = cases[i].value;
        struct verdict v = naive_settings(bytes, cases[i].n);
        describe("marked", bytes, cases[i].n, &v);
        REQUIRE(v.answer == cases[i].answer && v.where == cases[i].where);
        compare_record("marked", bytes, cases[i].n, seen);
    }
    REQUIRE(writes(numbers, OWN, 0, good));
    struct verdict empty = {.answer = 1};
    REQUIRE(reads_alike(NULL, 0, &empty) && places_alike(NULL, 0, &empty));
}

void wrong_places(const uint8_t good[OWN], const uint32_t g[6])
{
    static const size_t wrong[] = {0, 1, 5, 7, 12, 35, 37, 40, 72, SIZE_MAX, SIZE_MAX - 35};
    const uint32_t refused[6] = {g[0], g[1], g[2], g[3], 0, g[5]};
    for (size_t i = 0; i < sizeof wrong / sizeof *wrong; i++) {
        uint32_t out[8];
        memset(out, GUARD, sizeof out);
        REQUIRE(ind_settings_read(good, OWN, out + 1, wrong[i]) == 7);
        REQUIRE(ind_settings_read(good, 3, out + 1, wrong[i]) == 7);
        REQUIRE(ind_settings_read(NULL, 0, out + 1, wrong[i]) == 7);
        REQUIRE(all_guard(out, sizeof out));
        REQUIRE(writes(g, wrong[i], 7, NULL) && writes(refused, wrong[i], 6, NULL));
    }
    REQUIRE(writes(refused, OWN, 6, NULL));
    REQUIRE(ind_settings_read(good, OWN, NULL, 0) == 7);
    REQUIRE(ind_settings_write(g[0], g[1], g[2], g[3], g[4], g[5], NULL, 0) == 7);
}
