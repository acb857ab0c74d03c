/* What a run says of itself: see tell.h. */
#include "tell.h"

#include "list.h"
#include "shrink.h"

#include <inttypes.h>
#include <stdio.h>
#include <time.h>

enum { SECONDS = 5 };

void tell_progress(const char *what, uint64_t done, uint64_t all)
{
    static time_t last;
    static uint64_t asked;
    if (asked++ % 64 != 0 && done != all)
        return;
    time_t now = time(NULL);
    if (last == 0)
        last = now;
    if (now - last < SECONDS)
        return;
    last = now;
    printf("%s %" PRIu64 " of %" PRIu64 " ..\n", what, done, all);
    fflush(stdout);
}

void tell_failure(const char *part, uint64_t seed, uint32_t number, uint64_t calls,
                  struct session *s, const char *text)
{
    printf("failed after %" PRIu64 " calls: %s\n", calls, text);
    printf("replay: %s --seed %" PRIu64 " --session %u --placing %s\nshrinking ..\n", part, seed,
           number, s->placing == ENDING ? "ending" : "beginning");
    fflush(stdout);
    if (!session_shrink(s)) {
        printf("the two programs agree in this session; what is wrong is said above\n");
        return;
    }
    printf("the shortest session found, of %zu steps:\n", s->steps);
    session_list(s);
    fflush(stdout);
}

void tell_row(const char *head, const char *const name[], const uint64_t n[], int from, int to)
{
    printf("  %s:", head);
    for (int i = from; i < to; i++)
        printf("%s %s %" PRIu64, i == from ? "" : ",", name[i], n[i]);
    printf("\n");
}

bool tell_met(const char *head, const char *name, uint64_t n)
{
    if (n == 0)
        printf("never met: %s %s\n", head, name);
    return n > 0;
}
