/* Cases of geometries at their limits: see settings_cases.h. */
#include "settings_cases.h"

#include <string.h>

static struct settings_call now;

/* Read, and written.  A record has no room for some of the numbers, and they are cut there. */
static void both_ways(struct settings_run *r, const uint32_t g[SIX])
{
    record_of(&now, g);
    settings_case(r, &now);
    write_of(&now, g);
    settings_case(r, &now);
}

/* About every limit of a number, of a sum, of a product, and of the bytes that hold them. */
static const uint32_t values[] = {
    0,     1,     2,     3,     62,     63,     64,       65,         127,        128,       255,
    256,   257,   511,   512,   513,    1021,   1022,     1023,       1024,       1025,      4095,
    4096,  4097,  32767, 32768, 65405,  65406,  65407,    65408,      65535,      65536,     65537,
    65538, 66560, 69632, 131072, 16777216, 2147483647, 2147483648, 4294967294, 4294967295};
enum { VALUES = sizeof values / sizeof *values };

/* One number at each of these, and two. */
static void every_value(struct settings_run *r)
{
    static const uint32_t from[][SIX] = {{2, 2, 3, 3, 3, 1}, {64, 512, 1000, 24, 63935, 4096}};
    for (size_t i = 0; i < sizeof from / sizeof *from; i++)
        for (int a = 0; a < SIX; a++)
            for (int b = a; b < SIX; b++)
                for (size_t k = 0; k < VALUES * VALUES; k++) {
                    uint32_t g[SIX];
                    memcpy(g, from[i], sizeof g);
                    g[a] = values[k % VALUES];
                    g[b] = values[k / VALUES];
                    if (a != b || k % VALUES == k / VALUES)
                        both_ways(r, g);
                }
}

/* Every small geometry, with L from 0 past its limits. */
static void every_small(struct settings_run *r)
{
    for (uint32_t i = 0; i < 4 * 4 * 4 * 4; i++) {
        const uint32_t p = i % 4, w = i / 4 % 4, d = 1 + i / 16 % 4, t = 1 + i / 64;
        for (uint32_t l = 0; l <= d * p + 1; l++) {
            const uint32_t g[SIX] = {p, w, d, t, l, 1 + l};
            both_ways(r, g);
        }
    }
}

/* L about its limit by the data blocks, and by the map, for each number of blocks. */
static void every_most(struct settings_run *r)
{
    static const uint32_t pages[] = {1, 2, 63, 64}, words[] = {1, 2, 511, 512};
    for (uint32_t d = 2; d <= 1022; d += d < 6 || d > 1016 ? 1 : 127)
        for (uint32_t i = 0; i < 4 * 4 * 6; i++) {
            uint32_t g[SIX] = {pages[i % 4], words[i / 4 % 4], d, 1024 - d, 1, 1 + i};
            uint32_t by_data = (g[2] - 1) * g[0], by_map = ((g[3] - 1) * g[0] - 1) * g[1];
            g[4] = i / 16 < 3 ? by_data + i / 16 - 2 : by_map + i / 16 - 4;
            both_ways(r, g);
            g[3]++;
            both_ways(r, g);
        }
}

void settings_corners(struct settings_run *r)
{
    every_value(r);
    every_small(r);
    every_most(r);
}
