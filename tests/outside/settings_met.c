/* What the cases of the settings record met: see settings_met.h. */
#include "settings_met.h"

#include "independent.h"
#include "tell.h"
#include "trianglefire.h"

#include <inttypes.h>
#include <stdio.h>

static const char *const answer_name[ANSWERS_OF_SETTINGS] = {
    "ACCEPTED", "SHORT", "TAG", "LENGTH", "VERSION", "AFTER", "GEOMETRY", "PLACE"};
static const char *const field_name[FIELDS] = {"version", "P", "W", "D", "T", "L", "C"};
static const char *const refusal_name[REFUSALS] = {
    "version 0", "version 2", "version 255", "after tag 7, fewer than three bytes",
    "after tag 7, tag 0", "after tag 7, tag 7", "after tag 7, tags 1 to 6",
    "after tag 7, a cut value", "the same behind a skipped field"};
static const char *const skipped_name[SKIPPED] = {
    "nothing", "a length 0", "1 to 254", "255", "256", "257 to 65534", "65535", "one field", "two",
    "more", "tag 8", "tag 255", "a tag again", "a lower tag after a higher"};
static const char *const limit_name[LIMITS] = {
    "P = 1", "P = 64", "W = 1", "W = 512", "D = 2", "T = 2", "D+T = 1024", "L = 1",
    "L largest", "M largest", "C = 1", "C = 4096"};
static const char *const lent_name[LENGTHS_LENT] = {
    "bytes as NULL, 0", "no bytes", "numbers as NULL, 0", "no numbers", "fewer numbers",
    "more numbers", "other numbers and a bad record", "place as NULL, 0", "no place",
    "a smaller place", "a greater place", "another place and a bad geometry",
    "a geometry refused for a number that its field would cut to a good one"};

static void meet_reading(struct settings_met *m, const struct settings_call *c, uint32_t answer,
                         size_t where)
{
    int field = 0;
    while (answer <= BY_FIELD && field + 1 < FIELDS && field_at[field + 1] <= where)
        field++;
    if (answer >= TF_SETTINGS_SHORT && answer <= BY_FIELD)
        m->at_field[answer - TF_SETTINGS_SHORT][field]++;
    if (answer == TF_SETTINGS_VERSION) {
        m->refusals[VERSION_0] += c->bytes[where] == 0;
        m->refusals[VERSION_2] += c->bytes[where] == 2;
        m->refusals[VERSION_255] += c->bytes[where] == 255;
    }
    if (answer != TF_SETTINGS_AFTER)
        return;
    bool head = c->n - where < HEAD_BYTES;
    uint32_t tag = c->bytes[where];
    m->refusals[AFTER_HEAD] += head;
    m->refusals[AFTER_TAG_0] += !head && tag == 0;
    m->refusals[AFTER_TAG_7] += !head && tag == LAST_TAG;
    m->refusals[AFTER_OTHER_TAG] += !head && tag > 0 && tag < LAST_TAG;
    m->refusals[AFTER_CUT] += !head && tag > LAST_TAG;
    m->refusals[AFTER_SKIPPED] += where > RECORD_BYTES;
}

static int length_class(size_t length)
{
    if (length == 0)
        return LENGTH_0;
    if (length < 255)
        return LENGTH_BYTE;
    if (length <= 256)
        return length == 255 ? LENGTH_255 : LENGTH_256;
    return length < MOST_LENGTH ? LENGTH_OTHER : LENGTH_MOST;
}

static void meet_skipped(struct settings_met *m, const struct settings_call *c)
{
    uint32_t before = 0, fields = 0;
    for (size_t at = RECORD_BYTES; at < c->n; fields++) {
        const uint8_t *field = c->bytes + at;
        size_t length = (size_t)field[1] << 8 | field[2];
        m->skipped[length_class(length)]++;
        m->skipped[TAG_8] += field[0] == LAST_TAG + 1;
        m->skipped[TAG_255] += field[0] == 255;
        m->skipped[TAG_AGAIN] += field[0] == before;
        m->skipped[TAG_FALLING] += field[0] < before;
        before = field[0];
        at += HEAD_BYTES + length;
    }
    static const int of[] = {NOTHING, ONE_FIELD, TWO_FIELDS, MORE_FIELDS};
    m->skipped[of[fields < 3 ? fields : 3]]++;
}

static void meet_limits(uint64_t limits[LIMITS], const uint32_t g[SIX])
{
    const bool at[LIMITS] = {
        [AT_P_1] = g[0] == 1,
        [AT_P_64] = g[0] == 64,
        [AT_W_1] = g[1] == 1,
        [AT_W_512] = g[1] == 512,
        [AT_D_2] = g[2] == 2,
        [AT_T_2] = g[3] == 2,
        [AT_BLOCKS] = g[2] + g[3] == 1024,
        [AT_L_1] = g[4] == 1,
        [AT_L] = g[4] == (g[2] - 1) * g[0] - 1,
        [AT_M] = (g[4] + g[1] - 1) / g[1] == (g[3] - 1) * g[0] - 1,
        [AT_C_1] = g[5] == 1,
        [AT_C_4096] = g[5] == 4096,
    };
    for (int i = 0; i < LIMITS; i++)
        limits[i] += at[i];
}

/* A geometry that is refused, but would not be if its numbers were cut to their fields. */
static bool wide(const uint32_t g[SIX])
{
    uint32_t cut[SIX];
    for (int i = 0; i < SIX; i++)
        cut[i] = i == 4 ? g[i] : g[i] & 65535;
    return reasons_of(g) != 0 && reasons_of(cut) == 0;
}

static void meet_lent(struct settings_met *m, const struct settings_call *c, bool bad)
{
    bool reads = c->which == TO_READ, none = c->lent == 0;
    int first = reads ? NULL_NUMBERS : NULL_PLACE;
    size_t right = reads ? SIX : RECORD_BYTES;
    m->lent[NULL_BYTES] += reads && c->n == 0 && c->null;
    m->lent[NO_BYTES] += reads && c->n == 0 && !c->null;
    m->lent[first] += none && c->null;
    m->lent[first + 1] += none && !c->null;
    m->lent[first + 2] += !none && c->lent < right;
    m->lent[first + 3] += c->lent > right;
    m->lent[first + 4] += bad && c->lent != right;
    m->lent[WIDE_NUMBER] += !reads && wide(c->g);
}

void settings_meet(struct settings_met *m, const struct settings_call *c, uint32_t answer)
{
    uint32_t numbers[SIX];
    size_t where = 0;
    const uint32_t *g = c->which == TO_READ ? numbers : c->g;
    uint32_t record = c->which == TO_READ ? ind_settings_where(c->bytes, c->n, numbers, &where)
                                          : TF_SETTINGS_ACCEPTED;
    m->cases++;
    m->answers[c->which][answer]++;
    meet_lent(m, c, record != TF_SETTINGS_ACCEPTED || reasons_of(g) != 0);
    if (c->which == TO_READ)
        meet_reading(m, c, answer, where);
    if (answer == TF_SETTINGS_ACCEPTED)
        meet_limits(m->limits[c->which], g);
    if (answer == TF_SETTINGS_ACCEPTED && c->which == TO_READ)
        meet_skipped(m, c);
    for (int i = 0; answer == TF_SETTINGS_GEOMETRY && i < REASONS; i++)
        m->reasons[c->which][i] += reasons_of(g) == UINT32_C(1) << i;
}

/* Prints each row of what was met or, if `whole` is given, looks it through for what was not. */
static void each_row(const struct settings_met *m, bool *whole)
{
    static const char *const wrong[BY_FIELD] = {"too few bytes at", "a wrong tag at",
                                                "a wrong length at"};
    const struct {
        const char *head;
        const char *const *name;
        const uint64_t *n;
        int to;
    } rows[] = {
        {settings_name[TO_READ], answer_name, m->answers[TO_READ], ANSWERS_OF_SETTINGS},
        {wrong[0], field_name, m->at_field[0], FIELDS},
        {wrong[1], field_name, m->at_field[1], FIELDS},
        {wrong[2], field_name, m->at_field[2], FIELDS},
        {"refused", refusal_name, m->refusals, REFUSALS},
        {"skipped", skipped_name, m->skipped, SKIPPED},
        {"read with", limit_name, m->limits[TO_READ], LIMITS},
        {"written with", limit_name, m->limits[TO_WRITE], LIMITS},
        {"read and refused for", reason_name, m->reasons[TO_READ], REASONS},
        {"not written for", reason_name, m->reasons[TO_WRITE], REASONS},
        {"lent", lent_name, m->lent, LENGTHS_LENT},
    };
    for (size_t i = 0; i < sizeof rows / sizeof *rows; i++)
        if (whole == NULL)
            tell_row(rows[i].head, rows[i].name, rows[i].n, 0, rows[i].to);
        else
            for (int k = 0; k < rows[i].to; k++)
                *whole &= tell_met(rows[i].head, rows[i].name[k], rows[i].n[k]);
}

/* The answers that 02 gives to the writer. */
static const int of_writer[] = {TF_SETTINGS_ACCEPTED, TF_SETTINGS_GEOMETRY, TF_SETTINGS_PLACE};

void settings_print(const struct settings_met *m)
{
    printf("met: %" PRIu64 " cases of the settings record\n  %s:", m->cases,
           settings_name[TO_WRITE]);
    for (int i = 0; i < 3; i++)
        printf("%s %s %" PRIu64, i == 0 ? "" : ",", answer_name[of_writer[i]],
               m->answers[TO_WRITE][of_writer[i]]);
    printf("\n");
    each_row(m, NULL);
}

bool settings_whole(const struct settings_met *m)
{
    bool whole = true;
    for (int i = 0; i < 3; i++)
        whole &= tell_met(settings_name[TO_WRITE], answer_name[of_writer[i]],
                          m->answers[TO_WRITE][of_writer[i]]);
    each_row(m, &whole);
    return whole;
}
