/*
 * What P2 buys: the same requests with and without it.  Prints what study_compare
 * does, for each chip and trace.
 */
#include "study.h"

/*
 * The largest chip, with pages and blocks as in document 000.  The room that is
 * left for collections is changed at one size of the cache.
 */
static const struct geometry chips[] = {
    {64, 512, 1000, 24, 48000, 16},   {64, 512, 1000, 24, 48000, 64},
    {64, 512, 1000, 24, 48000, 256},  {64, 512, 1000, 24, 48000, 1024},
    {64, 512, 1000, 24, 48000, 4096}, {64, 512, 1000, 24, 32000, 256},
    {64, 512, 1000, 24, 60000, 256},
};
enum { CHIPS = sizeof chips / sizeof *chips };

/* Which entry is dropped doesn't go by whether it is changed, so the same are cached. */
static const struct comparison rules = {
    .settings = {{"one entry", IND_ONE_ENTRY, IND_SEGMENTED},
                 {"neighbours", IND_NEIGHBOURS, IND_SEGMENTED}},
    .same_misses = true,
};

int main(void)
{
    for (size_t i = 0; i < CHIPS; i++) {
        struct study s = study_new(chips[i]);
        /* By the rule that has the translation region collect soon. */
        study_fill(&s, &rules.settings[0]);
        /* Before the node is scattered: with little room it would stay so. */
        study_compare(&s, &traces[SEQUENTIAL], &rules);
        study_scatter(&s, &rules.settings[1]);
        study_compare(&s, &traces[SPREAD], &rules);
        study_compare(&s, &traces[FINANCIAL], &rules);
        study_compare(&s, &traces[HOT], &rules);
        study_free(&s);
    }
    return 0;
}
