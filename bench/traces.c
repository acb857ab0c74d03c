/*
 * The traces.  Nothing is told of how pages that are hot or popular lie to each
 * other, so they lie evenly on the node, where they have few neighbours.
 */
#include "traces.h"

#include "draw.h"
#include "exchange.h"

enum { HOT_PAGES = 256 };

/* A turn of hot-and-scan: writes to the hot pages, and then a scan of pages in order. */
enum { HOT_IN_TURN = 1024, SCAN_PAGES = 1024 };

/* The hot pages of the moving trace are others after so many requests. */
enum { MOVES_AFTER = 2048 };

/*
 * Document 000's Financial trace, made anew from what is told of it, in pages of
 * 2 KiB: requests of 2.19 pages in the mean, 9 of 100 of them reads (000, table 4);
 * 9 of 10 not over two pages, 2 of 1,000 going on where the last ended (002).
 */
enum { READS_IN_100 = 9, ONE_PAGE_IN_100 = 46, UP_TO_TWO_IN_100 = 90, GOING_ON_IN_1000 = 2 };
enum { LEAST_LARGE = 6, LARGE_SIZES = 6 };

/*
 * How often a page is asked for is made up: 9 of 10 requests begin in a tenth of
 * the places, of these 9 of 10 in a tenth of that tenth, and so on.  The shares
 * were chosen so that 8 of 10 accesses are to the 5,000 pages last used (000,
 * figure 2).
 */
enum { POPULAR_IN_10 = 9, PART = 10 };

/* A prime near the golden section of the pages, so that places of like rank lie far apart. */
enum { SCATTER = 29663 };

static struct request spread(struct source *s)
{
    return (struct request){KIND_WRITE, draw(&s->seed) % s->l};
}

static struct request hot_write(struct source *s)
{
    return (struct request){KIND_WRITE, draw_hot(&s->seed, HOT_PAGES, s->l)};
}

static struct request hot(struct source *s)
{
    return draw(&s->seed) % 10 == 0 ? spread(s) : hot_write(s);
}

static uint32_t next_page(struct source *s)
{
    uint32_t page = s->page;
    s->page = (page + 1) % s->l;
    return page;
}

static struct request sequential(struct source *s)
{
    return (struct request){KIND_WRITE, next_page(s)};
}

/* A scan goes on where the last one ended; one writes, the next reads. */
static struct request hot_and_scan(struct source *s)
{
    uint32_t turn = s->made / (HOT_IN_TURN + SCAN_PAGES);
    uint32_t place = s->made % (HOT_IN_TURN + SCAN_PAGES);
    s->made++;
    if (place < HOT_IN_TURN)
        return hot_write(s);
    return (struct request){turn % 2 == 0 ? KIND_WRITE : KIND_READ, next_page(s)};
}

/* The same, but each page of a scan is written and at once read back. */
static struct request hot_and_verify(struct source *s)
{
    uint32_t place = s->made++ % (HOT_IN_TURN + 2 * SCAN_PAGES);
    if (place < HOT_IN_TURN)
        return hot_write(s);
    if (place % 2 == 0)
        return (struct request){KIND_WRITE, s->page};
    return (struct request){KIND_READ, next_page(s)};
}

/* Other hot pages after each move, the ones beside the former.  None comes back while it counts. */
static struct request moving(struct source *s)
{
    struct request r = hot_write(s);
    r.page = (r.page + s->made++ / MOVES_AFTER) % s->l;
    return r;
}

static uint32_t size(uint64_t *seed)
{
    uint32_t of_100 = draw(seed) % 100;
    if (of_100 < UP_TO_TWO_IN_100)
        return of_100 < ONE_PAGE_IN_100 ? 1 : 2;
    return LEAST_LARGE + draw(seed) % LARGE_SIZES;
}

static uint32_t popular_place(uint64_t *seed, uint32_t l)
{
    uint32_t places = l;
    while (places > PART && draw(seed) % 10 < POPULAR_IN_10)
        places /= PART;
    uint32_t more_popular = places / PART;
    uint32_t rank = more_popular + draw(seed) % (places - more_popular);
    return (uint32_t)((uint64_t)rank * SCATTER % l);
}

static struct request financial(struct source *s)
{
    if (s->left == 0) {
        s->left = size(&s->seed);
        s->kind = draw(&s->seed) % 100 < READS_IN_100 ? KIND_READ : KIND_WRITE;
        if (draw(&s->seed) % 1000 >= GOING_ON_IN_1000)
            s->page = popular_place(&s->seed, s->l);
    }
    s->left--;
    return (struct request){s->kind, next_page(s)};
}

const struct trace traces[TRACES] = {
    [SEQUENTIAL] = {"sequential", sequential},
    [SPREAD] = {"spread", spread},
    [FINANCIAL] = {"Financial-like", financial},
    [HOT] = {"hot", hot},
    [HOT_AND_SCAN] = {"hot-and-scan", hot_and_scan},
    [HOT_AND_VERIFY] = {"hot-and-verify", hot_and_verify},
    [MOVING] = {"moving", moving},
};

struct source source_new(uint32_t l)
{
    return (struct source){.seed = 1, .l = l};
}
