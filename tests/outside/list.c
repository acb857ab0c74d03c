/* The listing of a session: see list.h. */
#include "list.h"

#include "fill.h"

#include <stdio.h>

static void list_words(const char *head, const uint32_t *words, size_t n)
{
    printf("%s", head);
    for (size_t i = 0; i < n && i < 4; i++)
        printf(" %u", words[i]);
    printf(n > 4 ? " ..\n" : "\n");
}

static void list_records(const struct play *p)
{
    const uint32_t *requests = play_slice(p, OF_INDEPENDENT, REQUESTS);
    size_t records = p->call.n[REQUESTS] / 2;
    printf(" of %zu:", records);
    for (size_t i = 0; i < records && i < 12; i++) {
        static const char *const kinds[] = {"read", "write"};
        if (requests[2 * i] < 2)
            printf(" %s %u,", kinds[requests[2 * i]], requests[2 * i + 1]);
        else
            printf(" kind %u %u,", requests[2 * i], requests[2 * i + 1]);
    }
    printf(records > 12 ? " ..\n" : "\n");
}

/* The lengths that are not those of the session's geometry. */
static void list_lengths(const struct play *p)
{
    const struct world *x = &p->state[OF_ARCHIVE];
    for (int i = 0; i < ALL; i++) {
        size_t fit = i < SLICES ? x->n[i] : i == BUFFER ? x->w : COUNTS_WORDS;
        bool of_run = i == REQUESTS || i == DATA || i == ANSWERS;
        if (call_takes(p->call.which, i) && (of_run || p->call.n[i] != fit))
            printf(" %s of %zu words,", slice_name[i], p->call.n[i]);
    }
}

static void list_step(const struct play *p, const struct step *step, size_t number)
{
    const struct call *c = &p->call;
    printf("%5zu  ", number);
    if (step->kind == ODD_WORDS || step->kind == EMPTIED) {
        printf(step->kind == EMPTIED ? "a cached entry set to none, changed, and its page invalid\n"
                                     : "words that no rule binds changed, and in some states how "
                                       "many entries are protected\n");
        return;
    }
    for (uint32_t i = 0; step->kind == CHANGED_WORD && i < p->changes.n; i++) {
        int slice;
        size_t index;
        row_word(&p->state[OF_ARCHIVE], p->changes.at[i], &slice, &index);
        printf("%s[%zu] = %u, ", slice_name[slice], index, p->changes.to[i]);
    }
    printf("%s", call_name[c->which]);
    if (step->kind == OTHER_GEOMETRY)
        printf(" with geometry %u %u %u %u %u %u,", c->g[0], c->g[1], c->g[2], c->g[3], c->g[4],
               c->g[5]);
    if (step->kind == OTHER_LENGTH || step->kind == OTHER_GEOMETRY)
        list_lengths(p);
    if (c->which == READ || c->which == WRITE)
        printf(" page %u", c->page);
    if (c->which == RUN)
        list_records(p);
    else if (c->which == WRITE)
        list_words(", words", play_slice(p, OF_INDEPENDENT, BUFFER), c->n[BUFFER]);
    else
        printf("\n");
}

void session_list(const struct session *s)
{
    static const char *const start[] = {"formatted", "a sound state at random", "words at random"};
    struct play p;
    printf("P=%u W=%u D=%u T=%u L=%u C=%u, %s; slices %s a page without access%s\n", s->g[0],
           s->g[1], s->g[2], s->g[3], s->g[4], s->g[5], start[s->start],
           s->placing == ENDING ? "end at" : "begin behind",
           s->read_only ? ", shared ones read-only" : "");
    bool agrees = play_start(&p, s);
    for (size_t i = 0; agrees && i < s->steps; i++) {
        agrees = play_step(&p, &s->step[i], true);
        list_step(&p, &s->step[i], i + 1);
    }
    if (!agrees)
        printf("       %s\n", p.text);
}
