/* Memory between pages without access: see stretch.h. */
#define _GNU_SOURCE
#include "stretch.h"

#include "test_world.h"

#include <stdio.h>
#include <sys/mman.h>
#include <unistd.h>

size_t stretch_page(void)
{
    static size_t page;
    if (page == 0)
        page = (size_t)sysconf(_SC_PAGESIZE);
    return page;
}

static void take(struct stretch *s, const char *name, size_t bytes)
{
    size_t page = stretch_page();
    bytes = (bytes + page - 1) / page * page;
    char *at = mmap(NULL, bytes + 2 * page, PROT_NONE,
                    MAP_PRIVATE | MAP_ANONYMOUS | MAP_NORESERVE, -1, 0);
    REQUIRE(at != MAP_FAILED);
    *s = (struct stretch){name, at + page, at + page + bytes};
}

void stretch_map(struct stretch *s, const char *name, size_t bytes)
{
    take(s, name, bytes);
    REQUIRE(mprotect(s->low, (size_t)(s->high - s->low), PROT_READ | PROT_WRITE) == 0);
}

void *stretch_map_shared(struct stretch *s, const char *name, size_t bytes)
{
    take(s, name, bytes);
    size_t room = (size_t)(s->high - s->low);
    int file = memfd_create(name, 0);
    REQUIRE(file >= 0 && ftruncate(file, (off_t)room) == 0);
    REQUIRE(mmap(s->low, room, PROT_READ, MAP_SHARED | MAP_FIXED, file, 0) == s->low);
    void *fill = mmap(NULL, room, PROT_READ | PROT_WRITE, MAP_SHARED, file, 0);
    REQUIRE(fill != MAP_FAILED && close(file) == 0);
    return fill;
}

void *stretch_slice(const struct stretch *s, size_t bytes, enum placing placing)
{
    return bytes == 0 || placing == ENDING ? s->high - bytes : s->low;
}

bool stretch_place(const struct stretch *s, const void *address, char *text, size_t size)
{
    ptrdiff_t page = (ptrdiff_t)stretch_page();
    const char *at = address;
    if (at >= s->high && at - s->high < page)
        snprintf(text, size, "touched byte %td behind the end of %s", at - s->high, s->name);
    else if (at < s->low && s->low - at <= page)
        snprintf(text, size, "touched byte %td before the start of %s", s->low - at, s->name);
    else if (at >= s->low && at < s->high)
        snprintf(text, size, "wrote to %s, which is shared", s->name);
    else
        return false;
    return true;
}
