/*
 * Plays one session on the independent program and prints what the definitions
 * are to give: a line `L` for each call (reply, three counts, first word of a
 * DONE read), then the five lists of the state, each on a line `S`.
 *
 * A line `E page` is no call: the page's cached entry, if it has one that names a
 * page, is set to *none*, changed, and that page marked invalid, which leaves a
 * sound state that no call leaves.  So does a line `P n`: n entries are protected,
 * or as many as may be.  A line `D n` protects n more than may be, so that the state
 * isn't sound.  A line `B` begins anew from the state as it is, which is printed on
 * lines `S` first: what comes before isn't compared.
 *
 * Last, on a line `N`, what the requests met since, in the order of the numbers
 * below.
 *
 * usage: driver P W D T L C < lines of `W page value`, `R page`, `E page`, `P n`, `D n` and `B`
 */
#include "../independent/independent.h"

#include <stdbool.h>
#include <stdio.h>
#include <stdlib.h>
#include <string.h>

enum { SPARE = 1, CACHE = 3, RECORD = 4, SIDES = 5, MOST_ENTRIES = 16 };
enum { USED = 4, PROTECTED = 5, RECORD_WORDS = 6 };
#define NONE UINT32_MAX

/* What is met, of P2 and of P5. */
enum {
    NEIGHBOURS,      /* written back along with a dropped entry */
    AT_NONE,         /* of them at *none* */
    BOTH_PARTS,      /* drops that wrote back protected ones and such in trial */
    BEHIND,          /* misses with protected entries before them */
    BEHIND_DROP,     /* of them with a drop */
    BELOW,           /* hits in trial, protected below its limit */
    AT_LIMIT,        /* at its limit, so that protected's last goes to the trial front */
    FIRST,           /* hits of protected's first */
    BETWEEN,         /* of one between */
    LAST,            /* of its last, where that isn't the first */
    DEMOTED_DROPPED, /* drops of the entry that last went to the trial front */
    OVER_LIMIT,      /* requests refused as more than C/2 are protected, but not more than used */
    OVER_USED,       /* as more are than used, but not more than C/2 */
    CASES
};

struct list {
    uint32_t *words;
    size_t n;
};

struct node {
    uint32_t g[6], counts[3];
    struct list side[SIDES], buffer;
    unsigned met[CASES];
    uint32_t demoted; /* the page whose entry last went to the trial front, or *none* */
};

static struct list lent(size_t n)
{
    struct list s = {malloc((n ? n : 1) * sizeof(uint32_t)), n};
    if (!s.words) {
        fputs("driver: out of memory\n", stderr);
        exit(1);
    }
    for (size_t i = 0; i < n; i++)
        s.words[i] = 7;
    return s;
}

#define GEOMETRY x->g[0], x->g[1], x->g[2], x->g[3], x->g[4], x->g[5]
#define SLICE(s) (s).words, (s).n
#define STATE SLICE(x->side[0]), SLICE(x->side[1]), SLICE(x->side[2]), SLICE(x->side[3]), SLICE(x->side[4])

static void format(struct node *x)
{
    size_t pages = (size_t)(x->g[2] + x->g[3]) * x->g[0], translation = (x->g[4] + x->g[1] - 1) / x->g[1];
    const size_t n[SIDES] = {pages * x->g[1], 2 * pages, translation, 3 * (size_t)x->g[5], RECORD_WORDS};
    for (int k = 0; k < SIDES; k++)
        x->side[k] = lent(n[k]);
    x->buffer = lent(x->g[1]);
    ind_format(GEOMETRY, STATE, x->counts, 3);
}

static void print_state(const struct node *x)
{
    for (int k = 0; k < SIDES; k++) {
        putchar('S');
        for (size_t i = 0; i < x->side[k].n; i++)
            printf(" %u", x->side[k].words[i]);
        putchar('\n');
    }
}

/* The entry of a page in a cache of so many entries, or NULL. */
static uint32_t *entry_of(uint32_t *cache, uint32_t entries, uint32_t page)
{
    for (uint32_t *entry = cache; entry < cache + 3 * (size_t)entries; entry += 3)
        if (entry[0] == page)
            return entry;
    return NULL;
}

static void empty(struct node *x, uint32_t page)
{
    uint32_t *entry = page < x->g[4] ? entry_of(x->side[CACHE].words, x->g[5], page) : NULL;
    if (entry == NULL || entry[1] == NONE)
        return;
    x->side[SPARE].words[2 * (size_t)entry[1]] = 0;
    entry[1] = NONE;
    entry[2] = 1;
}

static void protect(struct node *x, char kind, uint32_t n)
{
    uint32_t *record = x->side[RECORD].words, limit = x->g[5] / 2;
    uint32_t most = limit < record[USED] ? limit : record[USED];
    record[PROTECTED] = kind == 'D' ? most + n : n < most ? n : most;
}

/* Only a write-back makes a changed entry unchanged that stays in the cache. */
static void count_neighbours(struct node *x, uint32_t *before, uint32_t protected)
{
    uint32_t used = x->side[RECORD].words[USED];
    bool in[2] = {false, false};
    for (uint32_t rank = 0; rank < used; rank++) {
        const uint32_t *entry = x->side[CACHE].words + 3 * (size_t)rank;
        const uint32_t *was = entry_of(before, x->g[5], entry[0]);
        if (was == NULL || was[2] == 0 || entry[2] == 1)
            continue;
        x->met[NEIGHBOURS]++;
        x->met[AT_NONE] += entry[1] == NONE;
        in[was >= before + 3 * (size_t)protected] = true;
    }
    x->met[BOTH_PARTS] += in[0] && in[1];
}

static void count_refused(struct node *x, const uint32_t record[RECORD_WORDS])
{
    bool over_limit = record[PROTECTED] > x->g[5] / 2;
    x->met[OVER_LIMIT] += over_limit && record[PROTECTED] <= record[USED];
    x->met[OVER_USED] += !over_limit;
}

/* Where the page's entry stood before, or where it entered. */
static void count_order(struct node *x, uint32_t *before, const uint32_t record[RECORD_WORDS],
                        uint32_t page)
{
    uint32_t used = record[USED], protected = record[PROTECTED], entries = x->g[5];
    const uint32_t *entry = entry_of(before, entries, page);
    uint32_t rank = entry == NULL ? used : (uint32_t)(entry - before) / 3;
    if (entry == NULL) {
        x->met[BEHIND] += protected > 0;
        x->met[BEHIND_DROP] += protected > 0 && used == entries;
        x->met[DEMOTED_DROPPED] += used == entries && before[3 * (size_t)(used - 1)] == x->demoted;
    } else if (rank < protected) {
        x->met[rank == 0 ? FIRST : rank < protected - 1 ? BETWEEN : LAST]++;
    } else if (protected < entries / 2) {
        x->met[BELOW]++;
    } else if (protected > 0) {
        x->met[AT_LIMIT]++;
        x->demoted = before[3 * (size_t)(protected - 1)];
        return;
    }
    if (entry_of(x->side[CACHE].words, entries, x->demoted) == NULL || page == x->demoted)
        x->demoted = NONE;
}

static void request(struct node *x, char kind, uint32_t page, uint32_t value)
{
    uint32_t before[3 * MOST_ENTRIES], record[RECORD_WORDS];
    memcpy(before, x->side[CACHE].words, x->side[CACHE].n * sizeof *before);
    memcpy(record, x->side[RECORD].words, sizeof record);
    for (size_t i = 0; i < x->buffer.n; i++)
        x->buffer.words[i] = value;
    uint32_t reply = kind == 'W' ? ind_write(GEOMETRY, page, STATE, SLICE(x->buffer), x->counts, 3)
                                 : ind_read(GEOMETRY, page, STATE, SLICE(x->buffer), x->counts, 3);
    printf("L %u %u %u %u", reply, x->counts[0], x->counts[1], x->counts[2]);
    if (kind == 'R' && reply == IND_DONE)
        printf(" %u", x->buffer.words[0]);
    putchar('\n');
    if (reply == IND_DAMAGED)
        count_refused(x, record);
    if (reply > IND_UNWRITTEN)
        return;
    count_neighbours(x, before, record[PROTECTED]);
    count_order(x, before, record, page);
}

/* Serves the lines of the input. */
static void play(struct node *x)
{
    char kind;
    unsigned number, value = 0;
    while (scanf(" %c", &kind) == 1) {
        if (kind == 'B') {
            print_state(x);
            memset(x->met, 0, sizeof x->met);
            x->demoted = NONE;
            continue;
        }
        if (scanf("%u", &number) != 1 || (kind == 'W' && scanf("%u", &value) != 1))
            break;
        if (kind == 'E')
            empty(x, number);
        else if (kind == 'P' || kind == 'D')
            protect(x, kind, number);
        else
            request(x, kind, number, kind == 'W' ? value : 0);
    }
}

int main(int argc, char **argv)
{
    static struct node node;
    struct node *x = &node;
    if (argc != 7) {
        fputs("usage: driver P W D T L C < session\n", stderr);
        return 2;
    }
    for (int i = 0; i < 6; i++)
        x->g[i] = (uint32_t)strtoul(argv[1 + i], NULL, 10);
    if (x->g[5] > MOST_ENTRIES) {
        fprintf(stderr, "driver: more than %d entries\n", MOST_ENTRIES);
        return 2;
    }
    x->demoted = NONE;
    format(x);
    play(x);
    print_state(x);
    putchar('N');
    for (int i = 0; i < CASES; i++)
        printf(" %u", x->met[i]);
    putchar('\n');
    for (int k = 0; k < SIDES; k++)
        free(x->side[k].words);
    free(x->buffer.words);
    return 0;
}
