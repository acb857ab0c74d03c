/*
 * What is measured: the chips, and on each the cases.  A case is a state to
 * start from and some calls that are made on it in turn, by either library.
 */
#ifndef BENCH_CASES_H
#define BENCH_CASES_H

#include "calls.h"
#include "exchange.h"

struct chip {
    const char *name;
    struct geometry g;
    bool whole; /* every case, and not only those that show how the cost grows */
};

enum what { FORMAT, CHECK, READ, WRITE, RUN_READS, RUN_WRITES };

struct test_case {
    const char *name;
    enum what what;
    bool full;   /* on a full node, else on a fresh one */
    bool hot;    /* 64 pages again and again, else pages spread over the node */
    bool growth; /* measured on every chip */
};

extern const struct chip chips[];
extern const size_t chip_count;
extern const struct test_case cases[];
extern const size_t case_count;

enum { SINGLE_CALLS = 16 };

/* Fills the requests and the data of a case, the same at each call. */
void exchange_prepare(struct exchange *e, const struct test_case *c, const struct geometry *g);

/* Makes a node fresh or full; ends the program if a call is refused. */
void case_start(struct node *n, bool full);

/* How many calls a case has, and call i, which returns the reply number. */
size_t case_calls(const struct test_case *c);
uint32_t case_call(enum side s, const struct test_case *c, struct node *n, struct exchange *e,
                   size_t i);

#endif
