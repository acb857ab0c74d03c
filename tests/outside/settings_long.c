/*
 * Slices whose count is right only in its low 32 bits: see settings_cases.h.  The
 * memory is there, but only its first page is ever touched by a right call.
 */
#define _DEFAULT_SOURCE
#include "settings_cases.h"

#include "independent.h"
#include "stop.h"
#include "test_world.h"
#include "trianglefire.h"

#include <inttypes.h>
#include <stdio.h>
#include <string.h>
#include <sys/mman.h>

#define BEYOND (UINT64_C(1) << 32)

enum { LONG_BYTES, LONG_NUMBERS, LONG_PLACE, LONGS };
static const char *const long_name[LONGS] = {"a record", "numbers", "a place"};

struct lent_long {
    int which;
    void *at;
    uint32_t answer;
};

#define SERVE(prefix)                                                                             \
    static void prefix##_serve(void *with)                                                        \
    {                                                                                             \
        struct lent_long *x = with;                                                               \
        static const uint8_t record[RECORD_BYTES];                                                \
        uint32_t numbers[SIX];                                                                    \
        if (x->which == LONG_BYTES)                                                               \
            x->answer = prefix##_settings_read(x->at, BEYOND + RECORD_BYTES, numbers, SIX);       \
        else if (x->which == LONG_NUMBERS)                                                        \
            x->answer = prefix##_settings_read(record, RECORD_BYTES, x->at, BEYOND + SIX);        \
        else                                                                                      \
            x->answer =                                                                           \
                prefix##_settings_write(2, 2, 3, 3, 3, 1, x->at, BEYOND + RECORD_BYTES);          \
    }
SERVE(tf)
SERVE(ind)

/* What is lent begins with a good record, which stays in each of the calls. */
bool settings_long(char *text, size_t size)
{
    static const uint32_t good[SIX] = {2, 2, 3, 3, 3, 1};
    static struct settings_call c;
    size_t bytes = (BEYOND + SIX) * sizeof(uint32_t);
    void *at = mmap(NULL, bytes, PROT_READ | PROT_WRITE,
                    MAP_PRIVATE | MAP_ANONYMOUS | MAP_NORESERVE, -1, 0);
    REQUIRE(at != MAP_FAILED);
    record_of(&c, good);
    memcpy(at, c.bytes, c.n);
    for (int which = 0; which < LONGS; which++) {
        struct lent_long expected = {which, at, 0}, archive = {which, at, 0};
        ind_serve(&expected);
        bool returned = stop_watch(tf_serve, &archive);
        if (!returned || archive.answer != expected.answer || memcmp(at, c.bytes, c.n) != 0) {
            snprintf(text, size, "%s longer by %" PRIu64 ": %s %" PRIu32 ", expected %" PRIu32,
                     long_name[which], BEYOND, returned ? "answer" : "stopped before an answer",
                     archive.answer, expected.answer);
            return false;
        }
    }
    REQUIRE(munmap(at, bytes) == 0);
    return true;
}
