/* Cases of the settings record, made one by one: see settings_cases.h. */
#include "settings_cases.h"

#include <string.h>

/* 01's geometry, the largest chips, the smallest, and one whose numbers use every byte they can. */
static const uint32_t good[][SIX] = {
    {2, 2, 3, 3, 3, 1},        {64, 512, 1000, 24, 63935, 4096}, {64, 1, 512, 512, 32703, 4096},
    {1, 1, 3, 3, 1, 1},        {63, 258, 515, 261, 31337, 772},
};
enum { GOOD = sizeof good / sizeof *good };
static const uint32_t refused[SIX] = {2, 2, 3, 3, 4, 1};

/* Two fields of higher tags behind a record, which are then fields as the others are. */
enum { TAILED = FIELDS + 2 };
static const size_t piece_at[TAILED + 1] = {0, 4, 9, 14, 19, 24, 31, 36, 39, 47};

static struct settings_call now;

static void tailed(struct settings_call *c, const uint32_t g[SIX])
{
    record_of(c, g);
    record_add(c, 8, 0, 0);
    record_add(c, 200, 5, 5);
}

static void every_prefix(struct settings_run *r)
{
    for (size_t i = 0; i < GOOD; i++) {
        tailed(&now, good[i]);
        size_t whole = now.n;
        for (now.n = 0; now.n <= whole; now.n++)
            settings_case(r, &now);
    }
    now.n = 0;
    now.null = true;
    settings_case(r, &now);
}

static void every_byte(struct settings_run *r)
{
    for (size_t i = 0; i < GOOD; i++) {
        tailed(&now, good[i]);
        for (size_t at = 0; at < now.n; at++) {
            uint8_t was = now.bytes[at];
            for (int value = 0; value < 256; value++) {
                now.bytes[at] = (uint8_t)value;
                settings_case(r, &now);
            }
            now.bytes[at] = was;
        }
    }
}

/* A case of these fields of a record, in this order. */
static void in_order(struct settings_run *r, const int order[], int n)
{
    uint8_t from[piece_at[TAILED]];
    tailed(&now, good[GOOD - 1]);
    memcpy(from, now.bytes, now.n);
    now.n = 0;
    for (int i = 0; i < n; i++) {
        size_t at = piece_at[order[i]];
        record_replace(&now, now.n, 0, from + at, piece_at[order[i] + 1] - at);
    }
    settings_case(r, &now);
}

/* All fields but one, which may be none of them. */
static int all_but(int order[], int out)
{
    int n = 0;
    for (int i = 0; i < TAILED; i++)
        if (i != out)
            order[n++] = i;
    return n;
}

static int put_at(int order[], int n, int at, int field)
{
    memmove(order + at + 1, order + at, (size_t)(n - at) * sizeof *order);
    order[at] = field;
    return n + 1;
}

/* Each two fields swapped; each field left out, moved to each place, and put there once more. */
static void every_order(struct settings_run *r)
{
    int order[TAILED + 1];
    for (int a = 0; a < TAILED; a++) {
        in_order(r, order, all_but(order, a));
        for (int b = 0; b < TAILED; b++) {
            all_but(order, TAILED);
            order[a] = b;
            order[b] = a;
            in_order(r, order, TAILED);
            in_order(r, order, put_at(order, all_but(order, a), b, a));
            in_order(r, order, put_at(order, all_but(order, TAILED), b, a));
        }
    }
}

/* The bytes that the reader looks at before the numbers: of every field three, and the version. */
enum { LOOKED_AT = FIELDS * HEAD_BYTES + 1 };

static size_t looked_at(int i)
{
    return i == LOOKED_AT - 1 ? HEAD_BYTES : field_at[i / HEAD_BYTES] + (size_t)(i % HEAD_BYTES);
}

/* Which of two refusals comes first: two bytes wrong, or one and the record cut at each place. */
static void two_wrong(struct settings_run *r)
{
    static const uint8_t by[] = {1, 255};
    for (int a = 0; a < LOOKED_AT; a++)
        for (size_t value = 0; value < sizeof by; value++) {
            tailed(&now, good[0]);
            size_t whole = now.n;
            now.bytes[looked_at(a)] = (uint8_t)(now.bytes[looked_at(a)] + by[value]);
            for (int b = 0; b < a; b++) {
                now.bytes[looked_at(b)] ^= 0x40;
                settings_case(r, &now);
                now.bytes[looked_at(b)] ^= 0x40;
            }
            for (now.n = 0; now.n <= whole; now.n++)
                settings_case(r, &now);
        }
}

/* The same of a wrong byte, what follows tag 7, and the geometry. */
static void three_wrong(struct settings_run *r)
{
    for (int i = 0; i <= LOOKED_AT; i++)
        for (int tail = 0; tail < 4; tail++)
            for (int geometry = 0; geometry < 2; geometry++) {
                record_of(&now, geometry ? refused : good[0]);
                if (i < LOOKED_AT)
                    now.bytes[looked_at(i)] ^= 0x40;
                if (tail > 0) /* whole, cut, or of a low tag */
                    record_add(&now, tail == 3 ? LAST_TAG : LAST_TAG + 1, 4, tail == 2 ? 3 : 4);
                settings_case(r, &now);
            }
}

/* Six words and no other number, whatever the record is; its bytes may then be none. */
static void every_numbers(struct settings_run *r)
{
    static const size_t more[] = {18, 32, 256, 262, MOST_LENT};
    for (size_t i = 0; i < 17 + sizeof more / sizeof *more; i++)
        for (int kind = 0; kind < 4; kind++)
            for (int null = 0; null < 2; null++) {
                record_of(&now, kind == 1 ? refused : good[0]);
                if (kind == 2)
                    record_add(&now, LAST_TAG, 0, 0);
                if (kind == 3)
                    now.n = 0;
                now.lent = i < 17 ? i : more[i - 17];
                now.null = null;
                settings_case(r, &now);
            }
}

/* 36 bytes and no other number, but the geometry comes first. */
static void every_place(struct settings_run *r)
{
    static const size_t more[] = {72, 256 + RECORD_BYTES, MOST_LENT};
    for (size_t i = 0; i < 41 + sizeof more / sizeof *more; i++)
        for (int kind = 0; kind < 2; kind++)
            for (int null = 0; null < 2; null++) {
                write_of(&now, kind == 1 ? refused : good[1]);
                now.lent = i < 41 ? i : more[i - 41];
                now.null = null;
                settings_case(r, &now);
            }
}

void settings_made(struct settings_run *r)
{
    every_prefix(r);
    every_byte(r);
    every_order(r);
    two_wrong(r);
    three_wrong(r);
    every_numbers(r);
    every_place(r);
}
