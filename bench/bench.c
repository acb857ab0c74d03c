/*
 * Measures the library and the independent program side by side.
 *
 *   bench time    prints a line for each chip and case, fields separated by tabs:
 *                 CHIP WORDS CASE OURS THEIRS SWEEP ROUNDS
 *                 the times in nanoseconds a call; SWEEP is 0 where there is none;
 *                 for the settings record CHIP is "settings", and WORDS are bytes
 *   bench count   under callgrind, started with --instr-atstart=no: one round of each case, with a
 *                 dump of its instructions for each side, labelled CHIP, CASE, side and calls
 *
 * In each round both sides start from the same state and make the same calls in
 * turn, call by call.  What a call costs is its least time in any round,
 * since whatever else the machine does can only add to it.  After each round both must
 * have left the same memory, the same answers and the same counts.
 */
#define _POSIX_C_SOURCE 200809L
#include "cases.h"
#include "measure.h"
#include "settings.h"

#include <stdio.h>
#include <stdlib.h>
#include <string.h>

/* One case on one chip, with a node and an exchange for each side. */
struct match {
    const struct test_case *c;
    const struct node *start;
    struct node node[SIDES];
    struct exchange *exchange[SIDES];
    double best[SIDES][SINGLE_CALLS];
    double best_sweep;
};

/* A plain sweep is set beside the one call that has to read every lent word. */
static bool has_sweep(const struct test_case *c)
{
    return c->what == CHECK && !c->full;
}

/* A side at the start of a case: whatever the calls change is copied anew. */
static void reset(struct match *m, enum side s)
{
    exchange_prepare(m->exchange[s], m->c, &m->start->g);
    if (m->c->what != FORMAT && m->c->what != CHECK)
        node_copy(&m->node[s], m->start);
}

static void must_agree(const struct match *m, const uint32_t reply[SIDES])
{
    if (reply[OURS] == reply[THEIRS] && node_equal(&m->node[OURS], &m->node[THEIRS]) &&
        exchange_equal(m->exchange[OURS], m->exchange[THEIRS], &m->start->g))
        return;
    fprintf(stderr, "bench: the two programs disagree in case \"%s\"\n", m->c->name);
    exit(1);
}

/*
 * Right before its first call a side starts anew, and before each call comes a
 * check, untimed, so that both sides find as much of their node in the caches.
 */
static uint32_t timed_call(struct match *m, enum side s, size_t i)
{
    if (i == 0)
        reset(m, s);
    node_check(s, &m->node[s]);
    double begin = now();
    uint32_t reply = case_call(s, m->c, &m->node[s], m->exchange[s], i);
    keep_least(&m->best[s][i], now() - begin);
    return reply;
}

static void timed_sweep(struct match *m)
{
    volatile uint32_t all = node_sweep(m->start);
    double begin = now();
    all = node_sweep(m->start);
    keep_least(&m->best_sweep, now() - begin);
    (void)all;
}

/* Where a node or an exchange lies in memory makes a few percent: each side has either in turn. */
static void change_places(struct match *m)
{
    struct node node = m->node[OURS];
    struct exchange *exchange = m->exchange[OURS];
    m->node[OURS] = m->node[THEIRS];
    m->exchange[OURS] = m->exchange[THEIRS];
    m->node[THEIRS] = node;
    m->exchange[THEIRS] = exchange;
}

/*
 * Whoever begins changes from call to call, and from round to round so that the first
 * call of a round is always made on the node of the last call before: where the sides
 * change places, the same one of them begins once more.
 */
static void timed_round(struct match *m, size_t round)
{
    uint32_t reply[SIDES] = {0, 0};
    for (size_t i = 0; i < case_calls(m->c) && reply[OURS] == reply[THEIRS]; i++) {
        enum side first = ((round + 1) / 2 + i) % 2 == 0 ? OURS : THEIRS;
        enum side second = first == OURS ? THEIRS : OURS;
        reply[first] = timed_call(m, first, i);
        reply[second] = timed_call(m, second, i);
    }
    must_agree(m, reply);
    if (has_sweep(m->c))
        timed_sweep(m);
    if (round % 2 == 1)
        change_places(m);
}

static double nanoseconds(const struct match *m, enum side s)
{
    double sum = 0;
    for (size_t i = 0; i < case_calls(m->c); i++)
        sum += m->best[s][i];
    return sum / (double)case_calls(m->c);
}

static void time_case(struct match *m, const struct chip *chip)
{
    size_t round = 0;
    double begin = now();
    for (int s = 0; s < SIDES; s++)
        for (size_t i = 0; i < SINGLE_CALLS; i++)
            m->best[s][i] = NEVER;
    m->best_sweep = has_sweep(m->c) ? NEVER : 0;
    while (round < FEWEST_ROUNDS || (round < MOST_ROUNDS && now() - begin < BUDGET))
        timed_round(m, round++);
    printf("%s\t%zu\t%s\t%.0f\t%.0f\t%.0f\t%zu\n", chip->name, m->start->chip_words, m->c->name,
           nanoseconds(m, OURS), nanoseconds(m, THEIRS), m->best_sweep, round);
    fflush(stdout);
}

static void count_case(struct match *m, const struct chip *chip)
{
    char label[128];
    for (int s = 0; s < SIDES; s++) {
        reset(m, s);
        snprintf(label, sizeof label, "%s\t%s\t%s\t%zu", chip->name, m->c->name, side_name(s),
                 case_calls(m->c));
        CALLGRIND_START_INSTRUMENTATION;
        CALLGRIND_ZERO_STATS;
        for (size_t i = 0; i < case_calls(m->c); i++)
            case_call(s, m->c, &m->node[s], m->exchange[s], i);
        CALLGRIND_DUMP_STATS_AT(label);
        CALLGRIND_STOP_INSTRUMENTATION;
    }
}

/* The cases of a chip that start from a fresh node, or from a full one. */
static void run_cases(struct match *m, const struct chip *chip, bool full, bool count)
{
    for (m->c = cases; m->c < cases + case_count; m->c++) {
        if (m->c->full != full || !(chip->whole || m->c->growth))
            continue;
        fprintf(stderr, "bench: %s chip: %s\n", chip->name, m->c->name);
        (count ? count_case : time_case)(m, chip);
    }
}

static void run_chip(const struct chip *chip, bool count)
{
    struct node start = node_new(chip->g);
    struct match m = {.start = &start};
    for (int s = 0; s < SIDES; s++) {
        m.node[s] = node_new(chip->g);
        m.exchange[s] = exchange_new(&chip->g);
    }
    for (int full = 0; full <= 1; full++) {
        fprintf(stderr, "bench: %s chip: making a %s node\n", chip->name, full ? "full" : "fresh");
        case_start(&start, full);
        for (int s = 0; s < SIDES; s++)
            node_copy(&m.node[s], &start);
        run_cases(&m, chip, full, count);
    }
    for (int s = 0; s < SIDES; s++) {
        node_free(&m.node[s]);
        exchange_free(m.exchange[s]);
    }
    node_free(&start);
}

int main(int argc, char **argv)
{
    bool count = argc == 2 && strcmp(argv[1], "count") == 0;
    if (!count && (argc != 2 || strcmp(argv[1], "time") != 0)) {
        fprintf(stderr, "usage: bench time|count\n");
        return 2;
    }
    for (size_t i = 0; i < chip_count; i++)
        run_chip(&chips[i], count);
    settings_run(count);
    return 0;
}
