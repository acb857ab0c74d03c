/*
 * Makes calls of the settings record on the independent program and prints what
 * the definitions are to give: for each line the answer, and then what the call
 * left in the slice that it was lent to write.  Before the call that held 7 and no
 * other number.
 *
 * usage: settings < lines of `R n byte ..` (n words lent) and `W n P W D T L C` (n bytes lent)
 */
#include "../independent/independent.h"

#include <stdio.h>
#include <stdlib.h>
#include <string.h>

enum { MOST_LINE = 1 << 16, MOST_BYTES = 4096, MOST_LENT = 64, SIX = 6 };

static void serve(char kind, size_t lent, const uint32_t *given, size_t n)
{
    uint8_t bytes[MOST_BYTES], place[MOST_LENT];
    uint32_t numbers[MOST_LENT], answer;
    memset(place, 7, sizeof place);
    for (size_t i = 0; i < MOST_LENT; i++)
        numbers[i] = 7;
    for (size_t i = 0; i < n; i++)
        bytes[i] = (uint8_t)given[i];
    if (kind == 'R')
        answer = ind_settings_read(bytes, n, numbers, lent);
    else
        answer = ind_settings_write(given[0], given[1], given[2], given[3], given[4], given[5],
                                    place, lent);
    printf("%u", answer);
    for (size_t i = 0; i < lent; i++)
        printf(" %u", kind == 'R' ? numbers[i] : place[i]);
    putchar('\n');
}

int main(void)
{
    static char line[MOST_LINE];
    static uint32_t given[MOST_BYTES];
    while (fgets(line, sizeof line, stdin) != NULL) {
        char *at = line + 1, *end;
        size_t lent = strtoul(at, &at, 10), n = 0;
        for (;; at = end) {
            unsigned long number = strtoul(at, &end, 10);
            if (end == at)
                break;
            if (n == MOST_BYTES) {
                fputs("settings: too many numbers in a line\n", stderr);
                return 2;
            }
            given[n++] = (uint32_t)number;
        }
        if (lent > MOST_LENT || (line[0] != 'R' && n != SIX)) {
            fputs("settings: no line that is known\n", stderr);
            return 2;
        }
        serve(line[0], lent, given, n);
    }
    return 0;
}
