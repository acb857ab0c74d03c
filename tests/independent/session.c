/*
 * The session program: formats the geometry G, reads lines `W page value` or
 * `R page` from standard input, and prints for each the answer, the three counts
 * and, for a read that is DONE, the first word.  Other lines are skipped.
 */
#include "independent.h"

#include <inttypes.h>
#include <stdbool.h>
#include <stdio.h>

/* G: P=2, W=2, D=3, T=3, L=3, C=1, so M=2. */
#define G 2, 2, 3, 3, 3, 1
enum { W = 2, PAGES = 12 };

static uint32_t chip[PAGES * W], spare[PAGES * 2], directory[2], cache[3], record[6];
#define STATE chip, PAGES * W, spare, PAGES * 2, directory, 2, cache, 3, record, 6

/*
 * Reads " " and a decimal of 32 bits from standard input.  False if there is
 * anything else; *next is the first character not taken.
 */
static bool read_field(uint32_t *number, int *next)
{
    uint64_t value = 0;
    bool digits = false, fits = true;
    if (*next != ' ')
        return false;
    while ((*next = getchar()) >= '0' && *next <= '9') {
        digits = true;
        if (fits)
            value = value * 10 + (uint64_t)(*next - '0');
        fits = fits && value <= UINT32_MAX;
    }
    *number = (uint32_t)value;
    return digits && fits;
}

/*
 * Reads one line whose first character is `first`, to its end.  True if it is
 * `W page value` or `R page` and nothing more.
 */
static bool read_line(int first, uint32_t *page, uint32_t *value)
{
    int next = first;
    bool good = first == 'W' || first == 'R';
    if (good) {
        next = getchar();
        good = read_field(page, &next) && (first == 'R' || read_field(value, &next)) &&
               (next == '\n' || next == EOF);
    }
    while (next != '\n' && next != EOF)
        next = getchar();
    return good;
}

static void serve(bool write, uint32_t page, uint32_t value)
{
    uint32_t counts[3], buffer[W] = {value, value};
    uint32_t reply = write ? ind_write(G, page, STATE, buffer, W, counts, 3)
                           : ind_read(G, page, STATE, buffer, W, counts, 3);
    printf("%" PRIu32 " %" PRIu32 " %" PRIu32 " %" PRIu32, reply, counts[0], counts[1],
           counts[2]);
    if (!write && reply == IND_DONE)
        printf(" %" PRIu32, buffer[0]);
    putchar('\n');
}

int main(void)
{
    uint32_t counts[3], page = 0, value = 0;
    int first;
    if (ind_format(G, STATE, counts, 3) != IND_DONE)
        return 1;
    while ((first = getchar()) != EOF)
        if (read_line(first, &page, &value))
            serve(first == 'W', page, value);
    return fflush(stdout) == 0 ? 0 : 1;
}
