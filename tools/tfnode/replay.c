/*
 * tfnode replay: serves a trace of requests, `W page value` (every word of the page gets the value)
 * or `R page`, a line each, and sums what they cost.  A trace is one change: a line that cannot be
 * served ends the command with the image as it was.
 */
#include "commands.h"
#include "image.h"
#include "report.h"
#include "stream.h"

#include <errno.h>
#include <inttypes.h>
#include <stdio.h>
#include <stdlib.h>
#include <string.h>

struct replay {
    struct image image;
    uint32_t requests[TF_MOST_REQUESTS * TF_WORDS_IN_REQUEST];
    uint32_t answers[TF_MOST_REQUESTS];
    uint32_t *data;
    size_t waiting; /* requests that are not served yet */
    uint64_t line, writes, reads, unwritten;
    struct totals totals;
};

static void serve_waiting(struct replay *replay)
{
    uint32_t reply = node_run(&replay->image.node, replay->requests, replay->data, replay->answers,
                              replay->waiting, &replay->totals);
    if (reply != TF_DONE)
        fail_refused(reply, replay->image.path);
    for (size_t i = 0; i < replay->waiting; i++)
        replay->unwritten += replay->answers[i] == TF_UNWRITTEN;
    replay->waiting = 0;
    show_progress("replay", replay->writes + replay->reads, 0);
}

/* Puts a request at the end of the run, and serves the run once it is full. */
static void enqueue(struct replay *replay, uint32_t kind, uint32_t page, uint32_t value)
{
    const size_t w = number(&replay->image.node, W);
    uint32_t *request = replay->requests + replay->waiting * TF_WORDS_IN_REQUEST;
    request[TF_REQUEST_KIND] = kind;
    request[TF_REQUEST_PAGE] = page;
    for (size_t i = 0; i < w; i++)
        replay->data[replay->waiting * w + i] = value;
    if (++replay->waiting == TF_MOST_REQUESTS)
        serve_waiting(replay);
}

/* Serves a request by itself and prints its line: answer, three counts, and a read's first word. */
static void serve_line(struct replay *replay, uint32_t kind, uint32_t page, uint32_t value)
{
    struct node *node = &replay->image.node;
    struct totals *totals = &replay->totals;
    const struct totals before = *totals;
    uint32_t *buffer = replay->data;
    for (size_t i = 0; i < number(node, W); i++)
        buffer[i] = value;
    uint32_t reply = kind == TF_KIND_WRITE ? node_write(node, page, buffer, totals)
                                           : node_read(node, page, buffer, totals);
    if (reply != TF_DONE && reply != TF_UNWRITTEN)
        fail_refused(reply, replay->image.path);
    replay->unwritten += reply == TF_UNWRITTEN;
    printf("%" PRIu32 " %" PRIu64 " %" PRIu64 " %" PRIu64, reply, totals->reads - before.reads,
           totals->programs - before.programs, totals->erases - before.erases);
    if (kind == TF_KIND_READ && reply == TF_DONE)
        printf(" %" PRIu32, buffer[0]);
    putchar('\n');
}

/* Takes a line apart: its fields have one space between them. */
static bool parse_line(char *text, uint32_t *kind, uint32_t *page, uint32_t *value)
{
    if ((text[0] != 'W' && text[0] != 'R') || text[1] != ' ')
        return false;
    char *page_text = text + 2;
    *kind = text[0] == 'W' ? TF_KIND_WRITE : TF_KIND_READ;
    *value = 0;
    if (*kind == TF_KIND_READ)
        return parse_number(page_text, page);
    char *space = strchr(page_text, ' ');
    if (space == NULL)
        return false;
    *space = '\0';
    return parse_number(page_text, page) && parse_number(space + 1, value);
}

/* Blank lines and those that begin with # are left out. */
static void take_line(struct replay *replay, char *text, bool print)
{
    uint32_t kind, page, value;
    uint32_t limit = number(&replay->image.node, L);
    if (text[0] == '\0' || text[0] == '#')
        return;
    if (!parse_line(text, &kind, &page, &value))
        fail(STATUS_USAGE, "line %" PRIu64 " of the trace is neither `W page value` nor `R page`; "
             "mend it, nothing of the trace is kept", replay->line);
    if (page >= limit)
        fail(STATUS_USAGE, "line %" PRIu64 " of the trace has page %" PRIu32 ", and the node has "
             "pages 0 to %" PRIu32 "; mend it, nothing of the trace is kept", replay->line, page,
             limit - 1);
    *(kind == TF_KIND_WRITE ? &replay->writes : &replay->reads) += 1;
    if (print)
        serve_line(replay, kind, page, value);
    else
        enqueue(replay, kind, page, value);
}

static void take_trace(struct replay *replay, bool print)
{
    char *text = NULL;
    size_t room = 0;
    ssize_t length;
    while ((length = getline(&text, &room, stdin)) >= 0) {
        replay->line++;
        if (length > 0 && text[length - 1] == '\n')
            text[--length] = '\0';
        if (strlen(text) != (size_t)length)
            text[0] = '\a'; /* a zero byte: no line that we know */
        take_line(replay, text, print);
    }
    if (ferror(stdin))
        fail(STATUS_FILE, "cannot read standard input: %s; give the trace by `<` or a pipe",
             strerror(errno));
    free(text);
    serve_waiting(replay);
    end_progress();
}

static void print_replay(const struct replay *replay)
{
    printf("requests             ");
    print_number(replay->writes, "write, ", "writes, ");
    print_number(replay->reads, "read", "reads");
    if (replay->unwritten > 0)
        printf(", %" PRIu64 " of them of pages never written", replay->unwritten);
    printf("\nflash                ");
    print_totals(&replay->totals, false);
    printf("\nwrite amplification  ");
    if (replay->writes > 0)
        printf("%.2f programs for each write\n",
               (double)replay->totals.programs / (double)replay->writes);
    else
        puts("none, since nothing was written");
}

static void print_replay_json(const struct replay *replay)
{
    printf("{\"host_writes\": %" PRIu64 ", \"host_reads\": %" PRIu64 ", \"unwritten\": %" PRIu64
           ", ", replay->writes, replay->reads, replay->unwritten);
    print_totals(&replay->totals, true);
    if (replay->writes > 0)
        printf(", \"write_amplification\": %.6f}\n",
               (double)replay->totals.programs / (double)replay->writes);
    else
        puts(", \"write_amplification\": null}");
}

enum status command_replay(const struct arguments *arguments)
{
    static struct replay replay;
    if (given(arguments, OPTION_LINES) && given(arguments, OPTION_JSON))
        fail(STATUS_USAGE, "--lines and --json are two forms of the answer; give one of them");
    image_open(&replay.image, arguments->operands[0], CHANGE);
    replay.data = allocate_words((size_t)TF_MOST_REQUESTS * number(&replay.image.node, W));
    note_terminal_input("the trace");
    take_trace(&replay, given(arguments, OPTION_LINES));
    flush_answer();
    image_commit(&replay.image);
    if (given(arguments, OPTION_JSON))
        print_replay_json(&replay);
    else if (!given(arguments, OPTION_LINES))
        print_replay(&replay);
    return STATUS_DONE;
}
