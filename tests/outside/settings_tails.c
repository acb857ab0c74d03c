/* Cases of what follows tag 7: see settings_cases.h. */
#include "settings_cases.h"

static const uint32_t good[SIX] = {2, 2, 3, 3, 3, 1};

static struct settings_call now;

static const size_t lengths[] = {511,   512,   513,   1023,  1024,  4095,  4096,       32767,
                                 32768, 65279, 65280, 65281, 65533, 65534, MOST_LENGTH};
enum { EVERY_LENGTH = 301, LENGTHS = EVERY_LENGTH + sizeof lengths / sizeof *lengths };

static size_t length_of(size_t i)
{
    return i < EVERY_LENGTH ? i : lengths[i - EVERY_LENGTH];
}

/* A field of each length: whole, a byte less, a byte more, and the length saying 256 more. */
static void every_length(struct settings_run *r)
{
    static const uint32_t tags[] = {8, 9, 128, 255};
    for (size_t i = 0; i < LENGTHS; i++)
        for (size_t k = 0; k < sizeof tags / sizeof *tags; k++) {
            size_t length = length_of(i);
            record_of(&now, good);
            record_add(&now, tags[k], length, length);
            settings_case(r, &now);
            now.n--;
            settings_case(r, &now);
            now.n += 2;
            now.bytes[now.n - 1] = (uint8_t)tags[k];
            settings_case(r, &now);
            record_of(&now, good);
            record_add(&now, tags[k], (length + 256) % (MOST_LENGTH + 1), length);
            settings_case(r, &now);
        }
}

/* Every place, but of a long field only those near its ends and a few between. */
static size_t next_cut(size_t at, size_t from, size_t to)
{
    enum { NEAR = 12 };
    size_t between = at + (to - from) / NEAR;
    if (to - from < 512 || at < from + NEAR || at + NEAR >= to)
        return at + 1;
    return between < to - NEAR ? between : to - NEAR;
}

/* A field behind the record, and behind another, cut at each place. */
static void every_cut(struct settings_run *r)
{
    for (size_t i = 0; i < LENGTHS; i++) {
        size_t length = length_of(i);
        if (length > 40 && (length < 255 || length > 257) && length < 4095)
            continue;
        for (int behind = 0; behind < 2; behind++) {
            record_of(&now, good);
            if (behind)
                record_add(&now, 255, 3, 3);
            size_t from = now.n;
            record_add(&now, 8, length, length);
            size_t to = now.n;
            for (now.n = from; now.n <= to; now.n = next_cut(now.n, from, to))
                settings_case(r, &now);
        }
    }
}

/* Every tag, with any length, in the first place, the second and the third; whole, and cut. */
static void every_tag(struct settings_run *r)
{
    static const size_t some[] = {0, 1, 2, 5, 256};
    for (uint32_t tag = 0; tag < 256; tag++)
        for (size_t i = 0; i < sizeof some / sizeof *some; i++)
            for (int before = 0; before < 3; before++) {
                record_of(&now, good);
                for (int k = 0; k < before; k++)
                    record_add(&now, 100, 2, 2);
                record_add(&now, tag, some[i], some[i]);
                settings_case(r, &now);
                now.n--;
                settings_case(r, &now);
            }
}

/* Three fields of few tags and lengths in each order, one tag a low one; and a byte less. */
static void every_three(struct settings_run *r)
{
    static const uint32_t tags[] = {7, 8, 9, 255};
    static const size_t some[] = {0, 1, 3};
    enum { KINDS = 4 * 3 };
    for (uint32_t i = 0; i < KINDS * KINDS * KINDS; i++) {
        record_of(&now, good);
        for (uint32_t k = 0, left = i; k < 3; k++, left /= KINDS)
            record_add(&now, tags[left % 4], some[left % KINDS / 4], some[left % KINDS / 4]);
        settings_case(r, &now);
        now.n--;
        settings_case(r, &now);
    }
}

/* As many fields as there is room for, the last whole, cut, or of a low tag. */
static void many_fields(struct settings_run *r)
{
    static const size_t some[] = {0, 1, 2, 253, MOST_LENGTH};
    for (size_t i = 0; i < sizeof some / sizeof *some; i++) {
        record_of(&now, good);
        for (uint32_t tag = 8; now.n + HEAD_BYTES + some[i] + HEAD_BYTES <= MOST_BYTES; tag++)
            record_add(&now, 8 + tag % 248, some[i], some[i]);
        settings_case(r, &now);
        now.n--;
        settings_case(r, &now);
        now.n++;
        record_add(&now, LAST_TAG, 0, 0);
        settings_case(r, &now);
    }
}

void settings_tails(struct settings_run *r)
{
    every_length(r);
    every_cut(r);
    every_tag(r);
    every_three(r);
    many_fields(r);
}
