/*
 * What the random parts met: printed, so that a run shows what it covered, and
 * required, so that nothing passes because it was never tried.
 */
#include "selftest.h"

#include "independent.h"

#include <stdio.h>

static const char *const met_names[MET_KINDS] = {
    [MET_ALONG] = "neighbours along",
    [MET_AT_NONE] = "of them at none",
    [MET_UNCHANGED] = "left unchanged",
    [MET_CHANGED] = "left changed",
    [MET_ELSEWHERE] = "changed of another page",
    [MET_COLLECTED] = "collected first",
    [MET_FIRST] = "page didn't exist",
    [MET_FULL_READ] = "reads at their full bound",
    [MET_FULL_WRITE] = "writes",
};

static const char *const order_names[ORDER_KINDS] = {
    [ORDER_MISS_FOREMOST] = "misses with none protected",
    [ORDER_MISS_BETWEEN] = "between the parts",
    [ORDER_MISS_LAST] = "with no trial entry",
    [ORDER_DROP_BEHIND] = "drops behind protected ones",
    [ORDER_HIT_BELOW] = "hits in trial below the limit",
    [ORDER_HIT_AT] = "at it",
    [ORDER_HIT_LIMIT_0] = "at a limit of 0",
    [ORDER_HIT_FIRST] = "hits of protected's first",
    [ORDER_HIT_BETWEEN] = "between",
    [ORDER_HIT_LAST] = "of its last",
    [ORDER_ALONG_PROTECTED] = "protected neighbours along",
    [ORDER_ALONG_TRIAL] = "trial ones",
    [ORDER_ALONG_BOTH] = "of both parts at once",
    [ORDER_MOVED_PROTECTED] = "protected entries moved by collections",
    [ORDER_MOVED_TRIAL] = "trial ones",
    [ORDER_MOVED_OWN] = "a write's own, not in front",
    [ORDER_PLAIN_HIT] = "plain hits",
    [ORDER_PLAIN_MISS] = "misses",
    [ORDER_PLAIN_BORDER] = "either with a border lent",
};

/*
 * What stood beside the dropped entries.  By P2 no changed neighbour is left, by
 * the rule before it none goes along.
 */
static void require_met(const struct coverage *seen)
{
    for (int rule = IND_NEIGHBOURS; rule <= IND_ONE_ENTRY; rule++) {
        printf("written back by %s:", rule == IND_NEIGHBOURS ? "P2" : "01 before P2");
        for (int kind = 0; kind < MET_KINDS; kind++) {
            bool never = rule == IND_NEIGHBOURS ? kind == MET_CHANGED
                                                : kind == MET_ALONG || kind == MET_AT_NONE;
            printf("%s %s %llu", kind > 0 ? "," : "", met_names[kind],
                   (unsigned long long)seen->met[rule][kind]);
            snprintf(test_context, sizeof test_context, "rule %d, met: %s", rule,
                     met_names[kind]);
            REQUIRE((seen->met[rule][kind] == 0) == never);
        }
        printf("\n");
    }
}

/* What the order of the cache met. */
static void require_orders(const struct coverage *seen)
{
    printf("order of the cache:");
    for (int kind = 0; kind < ORDER_KINDS; kind++) {
        printf("%s %s %llu", kind > 0 ? "," : "", order_names[kind],
               (unsigned long long)seen->order[kind]);
        snprintf(test_context, sizeof test_context, "order, met: %s", order_names[kind]);
        REQUIRE(seen->order[kind] > 0);
    }
    printf("\n");
}

void print_coverage(const struct coverage *seen)
{
    printf("calls %llu, runs %llu, unwritten reads %llu, erases %llu\n",
           (unsigned long long)seen->calls, (unsigned long long)seen->runs,
           (unsigned long long)seen->unwritten, (unsigned long long)seen->erases);
    printf("programs %llu, of data pages %llu by writes, %llu by collections\n",
           (unsigned long long)seen->programs, (unsigned long long)seen->host,
           (unsigned long long)seen->copied);
    printf("writes at their full bound %llu, reads %llu\n",
           (unsigned long long)seen->full_bound_writes,
           (unsigned long long)seen->full_bound_reads);
    printf("states corrupted %llu, verdicts compared %llu, still sound %llu\nfirst broken rule:",
           (unsigned long long)seen->states, (unsigned long long)seen->corruptions,
           (unsigned long long)seen->broken[0]);
    for (int rule = 1; rule <= 7; rule++)
        printf(" %d: %llu", rule, (unsigned long long)seen->broken[rule]);
    printf("\nprotected entries tried: sound %llu, over C/2 %llu, over the used %llu, both %llu",
           (unsigned long long)seen->bordered[0][0], (unsigned long long)seen->bordered[1][0],
           (unsigned long long)seen->bordered[0][1], (unsigned long long)seen->bordered[1][1]);
    printf("\nsessions begun with protected entries %llu",
           (unsigned long long)seen->lent_protected);
    printf("\nsettings written %llu, not written %llu; records read by answer:",
           (unsigned long long)seen->writes[0], (unsigned long long)seen->writes[1]);
    for (int answer = 0; answer <= 6; answer++)
        printf(" %d: %llu", answer, (unsigned long long)seen->records[answer]);
    printf("\n");
}

void require_coverage(const struct coverage *seen)
{
    require_met(seen);
    require_orders(seen);
    snprintf(test_context, sizeof test_context, "what the random parts met");
    for (int rule = 0; rule <= 7; rule++)
        REQUIRE(seen->broken[rule] > 0);
    for (int i = 0; i < 4; i++)
        REQUIRE(seen->bordered[i / 2][i % 2] > 0);
    REQUIRE(seen->lent_protected > 0);
    for (int answer = 0; answer <= 6; answer++)
        REQUIRE(seen->records[answer] > 1000);
}
