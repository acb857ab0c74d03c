/* What the cases of the settings record met: see coverage.h, which does this for the sessions. */
#ifndef SETTINGS_MET_H
#define SETTINGS_MET_H

#include "settings_record.h"

enum { ANSWERS_OF_SETTINGS = 8, BY_FIELD = 3 };

/* A record of another version, and what is wrong after tag 7. */
enum {
    VERSION_0, VERSION_2, VERSION_255, AFTER_HEAD, AFTER_TAG_0, AFTER_TAG_7, AFTER_OTHER_TAG,
    AFTER_CUT, AFTER_SKIPPED, REFUSALS
};

/* Of accepted records: lengths, numbers and tags of the fields that were skipped. */
enum {
    NOTHING, LENGTH_0, LENGTH_BYTE, LENGTH_255, LENGTH_256, LENGTH_OTHER, LENGTH_MOST, ONE_FIELD,
    TWO_FIELDS, MORE_FIELDS, TAG_8, TAG_255, TAG_AGAIN, TAG_FALLING, SKIPPED
};

/* Of accepted geometries. */
enum {
    AT_P_1, AT_P_64, AT_W_1, AT_W_512, AT_D_2, AT_T_2, AT_BLOCKS, AT_L_1, AT_L, AT_M, AT_C_1,
    AT_C_4096, LIMITS
};

/* What was lent in another length, and as nothing. */
enum {
    NULL_BYTES, NO_BYTES, NULL_NUMBERS, NO_NUMBERS, FEWER_NUMBERS, MORE_NUMBERS, BAD_AND_NUMBERS,
    NULL_PLACE, NO_PLACE, FEWER_PLACE, MORE_PLACE, BAD_AND_PLACE, WIDE_NUMBER, LENGTHS_LENT
};

struct settings_met {
    uint64_t cases;
    uint64_t answers[SETTINGS_CALLS][ANSWERS_OF_SETTINGS];
    uint64_t at_field[BY_FIELD][FIELDS]; /* refusals 1 to 3, by the field they stood at */
    uint64_t refusals[REFUSALS];
    uint64_t skipped[SKIPPED];
    uint64_t limits[SETTINGS_CALLS][LIMITS];
    uint64_t reasons[SETTINGS_CALLS][REASONS]; /* geometries refused for this reason alone */
    uint64_t lent[LENGTHS_LENT];
};

void settings_meet(struct settings_met *m, const struct settings_call *c, uint32_t answer);
void settings_print(const struct settings_met *m);
/* False, with a line for each, if something was never met. */
bool settings_whole(const struct settings_met *m);

#endif
