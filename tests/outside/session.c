/* The sessions of the four parts: see session.h. */
#include "session.h"

#include <stdlib.h>

const char *const part_name[PARTS] = {"small", "damage", "middle", "largest"};

/* Blocks of 64 pages and fewer, pages of one word and of many, caches of one entry and of 4,096. */
static const uint32_t middle[][6] = {
    {64, 512, 4, 3, 191, 100}, {64, 1, 4, 5, 191, 64}, {16, 8, 20, 4, 300, 4096},
    {64, 5, 6, 4, 319, 50},    {64, 2, 3, 3, 127, 1},  {33, 9, 3, 2, 65, 7},
    {64, 1, 6, 6, 319, 200},   {13, 7, 9, 3, 100, 13}, {1, 3, 40, 14, 36, 5},
    {32, 50, 8, 4, 220, 60},
};

/* As many words, and as many entries of the map, as there can be. */
static const uint32_t largest[][6] = {
    {64, 512, 1000, 24, 63935, 4096},
    {64, 1, 512, 512, 32703, 4096},
};

static void choose_geometry(struct session *s, int part, uint32_t number, uint64_t *seed)
{
    const uint32_t *from = NULL;
    if (part == MIDDLE)
        from = middle[number % (sizeof middle / sizeof *middle)];
    if (part == LARGEST)
        from = largest[number % (sizeof largest / sizeof *largest)];
    if (from == NULL) {
        struct world small = world_random_small(seed);
        const uint32_t g[6] = {GEOMETRY_OF(&small)};
        for (int i = 0; i < 6; i++)
            s->g[i] = g[i];
        world_free(&small);
        return;
    }
    for (int i = 0; i < 6; i++)
        s->g[i] = from[i];
}

void session_add(struct session *s, int kind, uint32_t at, uint64_t *seed)
{
    s->step[s->steps++] = (struct step){kind, at, random_64(seed), NULL};
}

/* Mostly below L, and half the time one of a few, so that the cache has hits. */
static uint32_t choose_page(const struct session *s, uint64_t *seed)
{
    uint32_t l = s->g[4], odd = random_below(seed, 24);
    if (odd == 0)
        return random_below(seed, 2) ? l + random_below(seed, 2) : NONE - random_below(seed, 3);
    return random_below(seed, odd % 2 || l < 8 ? l : 8);
}

static uint32_t choose_records(const struct session *s, int part, uint64_t *seed)
{
    uint32_t rare = random_below(seed, part == SMALL ? 100 : 10);
    if (part == LARGEST || rare == 0)
        return MOST_REQUESTS - random_below(seed, 2);
    return random_below(seed, part == MIDDLE ? s->g[4] : 9);
}

static size_t words_of_chip(const struct session *s)
{
    return (size_t)(s->g[2] + s->g[3]) * s->g[0] * s->g[1];
}

static size_t words_of_others(const struct session *s)
{
    return (size_t)(s->g[2] + s->g[3]) * s->g[0] * 2 + (s->g[4] + s->g[1] - 1) / s->g[1] +
           (size_t)s->g[5] * 3 + RECORD_WORDS;
}

/* Any word of the state, and each eighth time its last: how many entries are protected. */
static uint32_t choose_word(const struct session *s, uint64_t *seed)
{
    size_t last = words_of_chip(s) + words_of_others(s) - 1;
    return random_below(seed, 8) ? (uint32_t)random_64(seed) : (uint32_t)last;
}

/* One step, by the weights of a column: small and damage, middle, largest. */
static void add_any(struct session *s, int part, uint64_t *seed)
{
    static const struct {
        int kind;
        uint32_t weight[3];
    } weights[] = {
        {WRITE, {440, 300, 100}},     {READ, {200, 150, 100}},       {RUN, {80, 250, 600}},
        {CHECK, {60, 50, 40}},        {OTHER_LENGTH, {40, 40, 40}},  {OTHER_GEOMETRY, {40, 40, 40}},
        {TOO_MANY, {5, 5, 20}},       {CHANGED_WORD, {90, 120, 40}}, {ODD_WORDS, {30, 30, 12}},
        {EMPTIED, {12, 12, 8}},       {FORMAT, {3, 3, 0}},
    };
    int column = part == LARGEST ? 2 : part == MIDDLE;
    uint32_t left = random_below(seed, 1000), i = 0;
    while (left >= weights[i].weight[column])
        left -= weights[i++].weight[column];
    int kind = weights[i].kind;
    uint32_t at = 0;
    if (kind == READ || kind == WRITE)
        at = choose_page(s, seed);
    else if (kind == RUN)
        at = choose_records(s, part, seed);
    else if (kind == CHANGED_WORD)
        at = choose_word(s, seed);
    session_add(s, kind, at, seed);
}

/* Every word of the state changed in turn, those of the chip, which has the most, less often. */
enum { TIMES_CHIP = 2, TIMES_OTHERS = 12 };

static void add_changes(struct session *s, uint64_t *seed)
{
    size_t chip = words_of_chip(s), others = words_of_others(s);
    for (size_t i = 0; i < chip * TIMES_CHIP; i++)
        session_add(s, CHANGED_WORD, (uint32_t)(i / TIMES_CHIP), seed);
    for (size_t i = 0; i < others * TIMES_OTHERS; i++)
        session_add(s, CHANGED_WORD, (uint32_t)(chip + i / TIMES_OTHERS), seed);
}

static int choose_start(int part, uint64_t *seed)
{
    uint32_t any = random_below(seed, 16);
    if (part == SMALL && any == 0)
        return ANY_WORDS;
    return part == LARGEST || any < 6 ? SOUND : FORMATTED;
}

struct session session_make(int part, uint64_t seed, uint32_t number, enum placing placing)
{
    static const uint32_t plain_steps[PARTS] = {200, 60, 90, 30};
    uint64_t own = seed * PARTS + (uint32_t)part;
    own = random_64(&own) + number;
    struct session s = {.placing = placing, .read_only = placing == BEGINNING};
    choose_geometry(&s, part, number, &own);
    s.seed = random_64(&own);
    s.start = choose_start(part, &own);
    size_t changes = words_of_chip(&s) * TIMES_CHIP + words_of_others(&s) * TIMES_OTHERS;
    s.step = malloc((plain_steps[part] + 1 + (part == DAMAGE ? changes : 0)) * sizeof *s.step);
    REQUIRE(s.step != NULL);
    for (uint32_t i = 0; i < plain_steps[part]; i++) {
        if (s.start == ANY_WORDS && i == 10)
            session_add(&s, FORMAT, 0, &own);
        add_any(&s, part, &own);
    }
    if (part == DAMAGE)
        add_changes(&s, &own);
    return s;
}

void session_free(struct session *s)
{
    free(s->step);
    free(s->fixed);
}
