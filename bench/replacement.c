/*
 * What P5 buys: the same requests with plain and with segmented replacement.  Prints
 * what study_compare does, for each chip and trace.
 */
#include "study.h"

/* The largest chip, with pages and blocks as in document 000. */
static const struct geometry chip = {64, 512, 1000, 24, 48000, 1};

enum { FEWEST_ENTRIES = 16, MOST_ENTRIES = 4096 };

/* Document 000's cache: entries of three words in 32 KiB. */
enum { ENTRIES_OF_000 = 32 * 1024 / (3 * 4) };

static const struct comparison orders = {
    .settings = {{"plain", IND_NEIGHBOURS, IND_PLAIN},
                 {"segmented", IND_NEIGHBOURS, IND_SEGMENTED}},
};

static struct study start(uint32_t entries)
{
    struct geometry g = chip;
    g.c = entries;
    struct study s = study_new(g);
    /* By the plain order, which leaves nothing protected: both begin as a node before P5. */
    study_fill(&s, &orders.settings[0]);
    study_scatter(&s, &orders.settings[0]);
    return s;
}

int main(void)
{
    for (uint32_t entries = FEWEST_ENTRIES; entries <= MOST_ENTRIES; entries *= 2) {
        struct study s = start(entries);
        study_compare(&s, &traces[HOT_AND_SCAN], &orders);
        study_compare(&s, &traces[FINANCIAL], &orders);
        study_compare(&s, &traces[SPREAD], &orders);
        study_compare(&s, &traces[HOT_AND_VERIFY], &orders);
        study_compare(&s, &traces[MOVING], &orders);
        study_free(&s);
    }
    struct study s = start(ENTRIES_OF_000);
    study_compare(&s, &traces[FINANCIAL], &orders);
    study_free(&s);
    return 0;
}
