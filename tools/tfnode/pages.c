/*
 * tfnode load, tfnode dump: many pages, in runs of as many requests as the library takes.  A load
 * is one change: the image is replaced after the last run.
 */
#include "commands.h"
#include "image.h"
#include "report.h"
#include "stream.h"

#include <inttypes.h>
#include <stdio.h>

/* What one run lends beside the state. */
struct run {
    uint32_t requests[TF_MOST_REQUESTS * TF_WORDS_IN_REQUEST];
    uint32_t answers[TF_MOST_REQUESTS];
    uint32_t *data;
};

static void begin_run(struct run *run, const struct node *node)
{
    run->data = allocate_words((size_t)TF_MOST_REQUESTS * number(node, W));
}

/* One request of a kind for each of n pages from `first`. */
static void serve(struct image *image, struct run *run, uint32_t kind, uint32_t first, size_t n,
                  struct totals *totals)
{
    for (size_t i = 0; i < n; i++) {
        run->requests[i * TF_WORDS_IN_REQUEST + TF_REQUEST_KIND] = kind;
        run->requests[i * TF_WORDS_IN_REQUEST + TF_REQUEST_PAGE] = first + (uint32_t)i;
    }
    uint32_t reply = node_run(&image->node, run->requests, run->data, run->answers, n, totals);
    if (reply != TF_DONE)
        fail_refused(reply, image->path);
    for (size_t i = 0; i < n; i++)
        if (run->answers[i] != TF_DONE && run->answers[i] != TF_UNWRITTEN)
            fail_refused(run->answers[i], image->path);
}

/* Loads all of standard input from page `first` on; gives its bytes. */
static uint64_t load_input(struct image *image, uint32_t first, struct totals *totals)
{
    static struct run run;
    const uint64_t room = number(&image->node, L) - first;
    const uint64_t expected = pages_expected(&image->node);
    uint64_t loaded = 0, bytes = 0;
    size_t n;
    begin_run(&run, &image->node);
    do {
        size_t got = read_pages(&image->node, run.data, TF_MOST_REQUESTS);
        n = (size_t)pages_of_bytes(&image->node, got);
        if (n > room - loaded)
            fail(STATUS_USAGE, "the data goes past the last page; from page %" PRIu32 " on the "
                 "node takes %" PRIu64 " bytes", first, room * page_bytes(&image->node));
        serve(image, &run, TF_KIND_WRITE, first + (uint32_t)loaded, n, totals);
        loaded += n;
        bytes += got;
        show_progress("load", loaded, expected);
    } while (n == TF_MOST_REQUESTS);
    end_progress();
    return bytes;
}

enum status command_load(const struct arguments *arguments)
{
    uint32_t first = number_operand(arguments->operands[1], "FIRST");
    struct image image;
    struct totals totals = {0};
    image_open(&image, arguments->operands[0], CHANGE);
    demand_pages(&image.node, first, 1);
    note_terminal_input("pages");
    uint64_t bytes = load_input(&image, first, &totals);
    if (bytes == 0)
        fail(STATUS_USAGE, "there is no data on standard input; give the pages by `<` or a pipe");
    image_commit(&image);
    if (bytes % page_bytes(&image.node) != 0)
        note("the data ends within a page, which was filled up with zero bytes");
    uint64_t loaded = pages_of_bytes(&image.node, bytes);
    bool json = given(arguments, OPTION_JSON);
    printf(json ? "{\"first\": %" PRIu32 ", \"pages\": %" PRIu64 ", "
                : "pages %" PRIu32 " to %" PRIu64 " are written: ",
           first, json ? loaded : first + loaded - 1);
    print_totals(&totals, json);
    puts(json ? "}" : "");
    return STATUS_DONE;
}

/* Gives the words of pages that were never written as an erased page has them; how many. */
static uint64_t erase_unwritten(const struct node *node, struct run *run, size_t n)
{
    uint64_t unwritten = 0;
    for (size_t i = 0; i < n; i++) {
        if (run->answers[i] == TF_DONE)
            continue;
        unwritten++;
        for (size_t j = 0; j < number(node, W); j++)
            run->data[i * number(node, W) + j] = TF_ERASED;
    }
    return unwritten;
}

enum status command_dump(const struct arguments *arguments)
{
    static struct run run;
    uint32_t first = number_operand(arguments->operands[1], "FIRST");
    uint32_t count = number_operand(arguments->operands[2], "COUNT");
    struct image image;
    struct totals totals = {0};
    uint64_t unwritten = 0;
    image_open(&image, arguments->operands[0], LOOK);
    demand_pages(&image.node, first, count);
    begin_run(&run, &image.node);
    for (uint32_t done = 0; done < count;) {
        uint32_t n = count - done < TF_MOST_REQUESTS ? count - done : TF_MOST_REQUESTS;
        serve(&image, &run, TF_KIND_READ, first + done, n, &totals);
        unwritten += erase_unwritten(&image.node, &run, n);
        write_pages(&image.node, run.data, n);
        done += n;
        show_progress("dump", done, count);
    }
    end_progress();
    if (unwritten > 0)
        note("%" PRIu64 " of the %" PRIu32 " pages were never written and are given as FF bytes",
             unwritten, count);
    return STATUS_DONE;
}
