/* tfnode map: every page of every block, as text or JSON on standard output, or as an SVG file. */
#include "map.h"

#include "commands.h"
#include "survey.h"

#include <inttypes.h>
#include <stdio.h>
#include <stdlib.h>
#include <sys/ioctl.h>
#include <unistd.h>

/* Terminal colours of the page states: dim, green, red, and reversed for what no rule knows. */
static const char *const colours[PAGE_STATES] = {"\033[2m", "\033[30;42m", "\033[30;41m",
                                                "\033[7m"};

enum { CELL_EXTRA = 8, PLAIN_WIDTH = 100 }; /* a cell is its pages, a number and a mark */

static bool colour_wanted(void)
{
    const char *refused = getenv("NO_COLOR");
    return isatty(STDOUT_FILENO) && (refused == NULL || refused[0] == '\0');
}

/* How many blocks fit in a line. */
static uint32_t cells_in_line(const struct node *node)
{
    struct winsize size;
    uint32_t width = PLAIN_WIDTH;
    if (ioctl(STDOUT_FILENO, TIOCGWINSZ, &size) == 0 && size.ws_col > 0)
        width = size.ws_col;
    uint32_t cells = width / (number(node, P) + CELL_EXTRA);
    return cells > 0 ? cells : 1;
}

/* The pages of a block, a character each; the colour changes only where the state does. */
static void print_pages(const struct node *node, uint32_t block, bool colour)
{
    const uint32_t p = number(node, P);
    enum page_state before = PAGE_STATES;
    for (uint32_t i = 0; i < p; i++) {
        enum page_state state = state_of_page(node, block * p + i);
        if (colour && state != before)
            printf("\033[0m%s", colours[state]);
        putchar(page_marks[state]);
        before = state;
    }
    if (colour)
        fputs("\033[0m", stdout);
}

static void print_region(const struct node *node, enum region region, bool colour)
{
    const uint32_t cells = cells_in_line(node);
    uint32_t first, end;
    region_blocks(node, region, &first, &end);
    printf("%s blocks %" PRIu32 " to %" PRIu32 "\n", region_names[region], first, end - 1);
    for (uint32_t block = first; block < end; block++) {
        printf("%5" PRIu32 "%c ", block, block_is_open(node, region, block) ? '>' : ' ');
        print_pages(node, block, colour);
        putchar((block - first + 1) % cells == 0 || block == end - 1 ? '\n' : ' ');
    }
}

static void print_region_json(const struct node *node, enum region region)
{
    uint32_t first, end;
    region_blocks(node, region, &first, &end);
    printf("\"%s\": [", region_names[region]);
    for (uint32_t block = first; block < end; block++) {
        printf("%s{\"block\": %" PRIu32 ", \"open\": %s, \"pages\": \"", block == first ? "" : ", ",
               block, block_is_open(node, region, block) ? "true" : "false");
        print_pages(node, block, false);
        printf("\"}");
    }
    putchar(']');
}

enum status command_map(const struct arguments *arguments)
{
    struct image image;
    if (given(arguments, OPTION_SVG) && given(arguments, OPTION_JSON))
        fail(STATUS_USAGE, "--svg and --json are two forms of the map; give one of them");
    image_open(&image, arguments->operands[0], LOOK);
    if (given(arguments, OPTION_SVG)) {
        map_to_svg(&image, arguments->svg);
    } else if (given(arguments, OPTION_JSON)) {
        putchar('{');
        print_region_json(&image.node, DATA);
        fputs(", ", stdout);
        print_region_json(&image.node, TRANSLATION);
        puts("}");
    } else {
        bool colour = colour_wanted();
        print_region(&image.node, DATA, colour);
        print_region(&image.node, TRANSLATION, colour);
        puts("# valid, x invalid, . erased; > open block");
    }
    return STATUS_DONE;
}
