/* The lent memory of the calls on a node: see lent.h. */
#include "lent.h"

#include <sys/mman.h>

const char *const slice_name[ALL] = {"chip",   "spare",    "directory", "cache",   "record",
                                     "buffer", "requests", "data",      "answers", "counts"};

/* Words for the largest geometry; what is rounded up leaves room for wrong lengths. */
static const size_t most_words[ALL] = {
    [CHIP] = (size_t)1024 * 64 * 512,
    [SPARE] = (size_t)1024 * 64 * 2,
    [DIRECTORY] = (size_t)1024 * 64,
    [CACHE] = (size_t)MOST_ENTRIES * 3,
    [RECORD] = RECORD_WORDS,
    [BUFFER] = 512,
    [REQUESTS] = (size_t)MOST_REQUESTS * 2,
    [DATA] = (size_t)MOST_REQUESTS * 512,
    [ANSWERS] = MOST_REQUESTS,
    [COUNTS] = COUNTS_WORDS,
};

void lent_map(struct lent *x)
{
    /* A page more than the words ask for, so that a wrong length can be the greater one. */
    for (int i = 0; i < ALL; i++)
        stretch_map(&x->stretch[i], slice_name[i],
                    most_words[i] * sizeof(uint32_t) + stretch_page());
    x->placing = ENDING;
}

size_t lent_room(const struct lent *x, int slice)
{
    return (size_t)(x->stretch[slice].high - x->stretch[slice].low) / sizeof(uint32_t);
}

uint32_t *lent_slice(const struct lent *x, int slice, size_t n)
{
    return stretch_slice(&x->stretch[slice], n * sizeof(uint32_t), x->placing);
}

void lent_protect(const struct lent *x, int slice, size_t n, bool read_only)
{
    size_t page = stretch_page();
    size_t bytes = (n * sizeof(uint32_t) + page - 1) / page * page;
    void *at = stretch_slice(&x->stretch[slice], bytes, x->placing);
    REQUIRE(mprotect(at, bytes, read_only ? PROT_READ : PROT_READ | PROT_WRITE) == 0);
}

bool lent_place(const struct lent *x, const void *address, char *text, size_t size)
{
    for (int i = 0; i < ALL; i++)
        if (stretch_place(&x->stretch[i], address, text, size))
            return true;
    return false;
}
