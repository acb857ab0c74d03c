/* tfnode write, tfnode read: one page. */
#include "commands.h"
#include "image.h"
#include "report.h"
#include "stream.h"

#include <inttypes.h>
#include <stdio.h>

/* What there was on standard input. */
struct given_data {
    size_t bytes; /* a page's at most */
    bool more;
};

static struct given_data take_page(const struct node *node, uint32_t *buffer)
{
    struct given_data data;
    note_terminal_input("the page");
    data.bytes = read_pages(node, buffer, 1);
    data.more = data.bytes == page_bytes(node) && getchar() != EOF;
    if (data.bytes == 0)
        fail(STATUS_USAGE, "there is no data on standard input; give the page by `<` or a pipe");
    return data;
}

/* Says so where the data was not just a page. */
static void note_other_size(const struct node *node, struct given_data data)
{
    if (data.bytes < page_bytes(node))
        note("%zu bytes were given, filled up with zero bytes to the page's %zu", data.bytes,
             page_bytes(node));
    if (data.more)
        note("more was given than the page's %zu bytes; the rest was cut off, `load` would take it",
             page_bytes(node));
}

enum status command_write(const struct arguments *arguments)
{
    uint32_t page = number_operand(arguments->operands[1], "PAGE");
    uint32_t buffer[TF_MOST_WORDS_IN_PAGE];
    struct image image;
    struct totals totals = {0};
    image_open(&image, arguments->operands[0], CHANGE);
    demand_pages(&image.node, page, 1);
    struct given_data data = take_page(&image.node, buffer);
    uint32_t reply = node_write(&image.node, page, buffer, &totals);
    if (reply != TF_DONE)
        fail_refused(reply, image.path);
    image_commit(&image);
    note_other_size(&image.node, data);
    bool json = given(arguments, OPTION_JSON);
    printf(json ? "{\"page\": %" PRIu32 ", " : "page %" PRIu32 " is written: ", page);
    print_totals(&totals, json);
    puts(json ? "}" : "");
    return STATUS_DONE;
}

enum status command_read(const struct arguments *arguments)
{
    uint32_t page = number_operand(arguments->operands[1], "PAGE");
    uint32_t buffer[TF_MOST_WORDS_IN_PAGE];
    struct image image;
    struct totals totals = {0};
    image_open(&image, arguments->operands[0], LOOK);
    demand_pages(&image.node, page, 1);
    uint32_t reply = node_read(&image.node, page, buffer, &totals);
    if (reply == TF_UNWRITTEN)
        fail(STATUS_ANSWER, "page %" PRIu32 " was never written; `tfnode write` writes it", page);
    if (reply != TF_DONE)
        fail_refused(reply, image.path);
    write_pages(&image.node, buffer, 1);
    return STATUS_DONE;
}
