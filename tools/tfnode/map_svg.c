/*
 * The map as a picture: a row of squares for each block, a square for each page.  Runs of pages in
 * one state are one rectangle, so that the largest chip stays a file that a browser opens at once.
 */
#include "map.h"

#include "beside.h"
#include "say.h"
#include "survey.h"

#include <errno.h>
#include <stdio.h>
#include <stdlib.h>
#include <string.h>

/* Measures in pixels. */
enum { WIDTH = 1000, MARGIN = 20, TOP = 56, HEADING = 34 };
enum { SQUARE = 6, LABEL = 44, GAP = 20, ROW = 14 };

/* Told apart without red and green. */
static const char *const fills[PAGE_STATES] = {"#e4e7eb", "#2b6cb0", "#e39a3b", "#111111"};
static const char *const names[PAGE_STATES] = {"erased", "valid", "invalid", "unknown"};

struct picture {
    FILE *out;
    const struct node *node;
    unsigned columns, column_width;
    unsigned y; /* where the next region begins */
};

static void draw_box(const struct picture *picture, unsigned x, unsigned y, unsigned width,
                     unsigned height, const char *fill)
{
    fprintf(picture->out, "<rect x=\"%u\" y=\"%u\" width=\"%u\" height=\"%u\" fill=\"%s\"/>", x, y,
            width, height, fill);
}

static void draw_frame(const struct picture *picture, unsigned x, unsigned y, unsigned width,
                       unsigned height)
{
    fprintf(picture->out,
            "<rect x=\"%u\" y=\"%u\" width=\"%u\" height=\"%u\" fill=\"none\" stroke=\"#111\" "
            "stroke-width=\"2\"/>", x, y, width, height);
}

static void draw_legend(const struct picture *picture)
{
    const uint32_t *n = picture->node->geometry.numbers;
    unsigned x = MARGIN;
    fprintf(picture->out,
            "<text x=\"%d\" y=\"%d\" font-size=\"14\" font-weight=\"bold\">P = %u, W = %u, D = %u, "
            "T = %u, L = %u, C = %u</text>\n", MARGIN, MARGIN, n[P], n[W], n[D], n[T], n[L], n[C]);
    for (int state = 0; state < PAGE_UNKNOWN; state++, x += 80) {
        draw_box(picture, x, 32, 12, 12, fills[state]);
        fprintf(picture->out, "<text x=\"%u\" y=\"42\">%s</text>\n", x + 18, names[state]);
    }
    draw_frame(picture, x, 32, 12, 12);
    fprintf(picture->out, "<text x=\"%u\" y=\"42\">open block</text>\n", x + 18);
}

/* The pages of a block from x on; how many are in each state. */
static void draw_pages(const struct picture *picture, uint32_t block, unsigned x, unsigned y,
                       unsigned counts[PAGE_STATES])
{
    const uint32_t p = number(picture->node, P);
    for (uint32_t i = 0; i < p;) {
        enum page_state state = state_of_page(picture->node, block * p + i);
        uint32_t from = i;
        while (i < p && state_of_page(picture->node, block * p + i) == state)
            i++;
        counts[state] += i - from;
        draw_box(picture, x + from * SQUARE, y, (i - from) * SQUARE, 10, fills[state]);
    }
}

static void draw_block(const struct picture *picture, uint32_t block, bool open, unsigned x,
                       unsigned y)
{
    unsigned counts[PAGE_STATES] = {0};
    fprintf(picture->out, "<g><text x=\"%u\" y=\"%u\" text-anchor=\"end\">%u</text>", x + LABEL - 6,
            y + 9, block);
    draw_pages(picture, block, x + LABEL, y, counts);
    if (open)
        draw_frame(picture, x + LABEL - 1, y - 1, number(picture->node, P) * SQUARE + 2, 12);
    fprintf(picture->out,
            "<title>block %u%s: %u valid, %u invalid, %u erased</title></g>\n", block,
            open ? ", open" : "", counts[PAGE_VALID], counts[PAGE_INVALID], counts[PAGE_ERASED]);
}

static unsigned rows(const struct picture *picture, unsigned count)
{
    return (count + picture->columns - 1) / picture->columns;
}

static void draw_region(struct picture *picture, enum region region)
{
    uint32_t first, end;
    region_blocks(picture->node, region, &first, &end);
    fprintf(picture->out, "<text x=\"%d\" y=\"%u\" font-size=\"13\">%s blocks %u to %u</text>\n",
            MARGIN, picture->y + 18, region_names[region], first, end - 1);
    for (uint32_t block = first; block < end; block++) {
        uint32_t at = block - first;
        draw_block(picture, block, block_is_open(picture->node, region, block),
                   MARGIN + at % picture->columns * picture->column_width,
                   picture->y + HEADING + at / picture->columns * ROW);
    }
    picture->y += HEADING + rows(picture, end - first) * ROW;
}

static void draw(struct picture *picture)
{
    const struct node *node = picture->node;
    picture->column_width = LABEL + number(node, P) * SQUARE + GAP;
    picture->columns = (WIDTH - 2 * MARGIN) / picture->column_width;
    if (picture->columns == 0)
        picture->columns = 1;
    unsigned row_count = rows(picture, number(node, D)) + rows(picture, number(node, T));
    unsigned height = TOP + 2 * HEADING + row_count * ROW + MARGIN;
    fprintf(picture->out,
            "<svg xmlns=\"http://www.w3.org/2000/svg\" width=\"%d\" height=\"%u\" "
            "viewBox=\"0 0 %d %u\" font-family=\"sans-serif\" font-size=\"10\" fill=\"#111\">\n",
            WIDTH, height, WIDTH, height);
    draw_box(picture, 0, 0, WIDTH, height, "#fff");
    picture->y = TOP;
    draw_legend(picture);
    draw_region(picture, DATA);
    draw_region(picture, TRANSLATION);
    fputs("</svg>\n", picture->out);
}

void map_to_svg(const struct image *image, const char *path)
{
    struct stat there;
    char *text = NULL;
    size_t length = 0;
    struct picture picture = {.out = open_memstream(&text, &length), .node = &image->node};
    bool taken = lstat(path, &there) == 0;
    if (taken && !S_ISREG(there.st_mode))
        fail(STATUS_USAGE, "%s is no plain file; give --svg another name", path);
    if (taken && there.st_dev == image->file.st_dev && there.st_ino == image->file.st_ino)
        fail(STATUS_USAGE, "%s is the image itself; give --svg another name", path);
    if (picture.out != NULL)
        draw(&picture);
    if (picture.out == NULL || fclose(picture.out) != 0)
        fail(STATUS_FILE, "no memory left for the picture: %s; close other programs and try again",
             strerror(errno));
    beside_begin(path);
    beside_write(text, length);
    beside_commit(NULL);
    free(text);
}
