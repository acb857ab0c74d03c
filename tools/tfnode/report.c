/* Numbers of an answer. */
#include "report.h"

#include <inttypes.h>
#include <stdio.h>

void print_number(uint64_t n, const char *one, const char *many)
{
    printf("%" PRIu64 " %s", n, n == 1 ? one : many);
}

void print_totals(const struct totals *totals, bool json)
{
    if (json) {
        printf("\"reads\": %" PRIu64 ", \"programs\": %" PRIu64 ", \"erases\": %" PRIu64,
               totals->reads, totals->programs, totals->erases);
        return;
    }
    print_number(totals->reads, "read, ", "reads, ");
    print_number(totals->programs, "program, ", "programs, ");
    print_number(totals->erases, "erase", "erases");
}

void print_geometry(const struct geometry *geometry, bool json)
{
    for (int i = 0; i < NUMBERS; i++)
        printf(json ? "%s\"%c\": %" PRIu32 : "%s%c=%" PRIu32, i == 0 ? "" : json ? ", " : " ",
               "PWDTLC"[i], geometry->numbers[i]);
}
