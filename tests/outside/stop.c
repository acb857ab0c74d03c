/* Calls under watch, and the signals that stop them: see stop.h. */
#define _DEFAULT_SOURCE
#include "stop.h"

#include "test_world.h"

#include <setjmp.h>
#include <signal.h>
#include <stdio.h>
#include <string.h>
#include <sys/time.h>

/* Seconds of processor time after which a call is said not to return. */
enum { PATIENCE = 20 };

static sigjmp_buf way_out;
static volatile sig_atomic_t inside, seconds_inside, stopped_by;
static void *volatile stopped_at;

static void stop(int signal, siginfo_t *info, void *context)
{
    (void)context;
    if (signal == SIGVTALRM && (!inside || ++seconds_inside < PATIENCE))
        return;
    if (!inside) {
        /* An error of the test program itself: it ends as it would have. */
        struct sigaction usual = {.sa_handler = SIG_DFL};
        sigaction(signal, &usual, NULL);
        return;
    }
    stopped_by = signal;
    stopped_at = info->si_addr;
    siglongjmp(way_out, 1);
}

void stop_prepare(void)
{
    static char stack[1 << 16];
    static const int signals[] = {SIGSEGV, SIGBUS, SIGILL, SIGFPE, SIGABRT, SIGTRAP, SIGVTALRM};
    const stack_t own = {.ss_sp = stack, .ss_size = sizeof stack};
    const struct itimerval second = {{1, 0}, {1, 0}};
    struct sigaction action = {.sa_sigaction = stop,
                               .sa_flags = SA_SIGINFO | SA_NODEFER | SA_ONSTACK | SA_RESTART};
    REQUIRE(sigaltstack(&own, NULL) == 0);
    for (size_t i = 0; i < sizeof signals / sizeof *signals; i++)
        REQUIRE(sigaction(signals[i], &action, NULL) == 0);
    REQUIRE(setitimer(ITIMER_VIRTUAL, &second, NULL) == 0);
}

bool stop_watch(void (*call)(void *with), void *with)
{
    stopped_by = 0;
    seconds_inside = 0;
    if (sigsetjmp(way_out, 0) != 0) {
        inside = 0;
        return false;
    }
    inside = 1;
    call(with);
    inside = 0;
    return true;
}

const void *stop_address(void)
{
    return stopped_by == SIGSEGV ? stopped_at : NULL;
}

void stop_say(char *text, size_t size)
{
    if (stopped_by == SIGVTALRM)
        snprintf(text, size, "does not return");
    else
        snprintf(text, size, "stopped by signal %d (%s)", (int)stopped_by,
                 strsignal((int)stopped_by));
}

bool stop_hung(void)
{
    return stopped_by == SIGVTALRM;
}
