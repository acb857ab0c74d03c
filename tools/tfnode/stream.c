/* Standard input and output of the commands that move page data. */
#include "stream.h"

#include "say.h"
#include "words.h"

#include <errno.h>
#include <stdio.h>
#include <stdlib.h>
#include <string.h>
#include <sys/stat.h>
#include <unistd.h>

size_t page_bytes(const struct node *node)
{
    return (size_t)number(node, W) * BYTES_IN_WORD;
}

uint32_t *allocate_words(size_t n)
{
    uint32_t *words = calloc(n, sizeof *words);
    if (words == NULL)
        fail(STATUS_FILE, "no memory left; close other programs and try again");
    return words;
}

size_t read_pages(const struct node *node, uint32_t *words, size_t pages)
{
    unsigned char *bytes = (unsigned char *)words;
    size_t room = pages * page_bytes(node);
    size_t got = fread(bytes, 1, room, stdin);
    if (ferror(stdin))
        fail(STATUS_FILE, "cannot read standard input: %s; give the data by `<` or a pipe",
             strerror(errno));
    memset(bytes + got, 0, room - got);
    words_from_bytes(words, bytes, room / BYTES_IN_WORD);
    return got;
}

uint64_t pages_of_bytes(const struct node *node, uint64_t bytes)
{
    return (bytes + page_bytes(node) - 1) / page_bytes(node);
}

uint64_t pages_expected(const struct node *node)
{
    struct stat input;
    off_t at = lseek(STDIN_FILENO, 0, SEEK_CUR);
    if (at < 0 || fstat(STDIN_FILENO, &input) != 0 || !S_ISREG(input.st_mode) || at > input.st_size)
        return 0;
    return pages_of_bytes(node, (uint64_t)(input.st_size - at));
}

void write_pages(const struct node *node, const uint32_t *words, size_t pages)
{
    size_t bytes = page_bytes(node);
    unsigned char page[TF_MOST_WORDS_IN_PAGE * BYTES_IN_WORD];
    for (size_t i = 0; i < pages; i++) {
        bytes_from_words(page, words + i * number(node, W), number(node, W));
        fwrite(page, 1, bytes, stdout);
    }
    flush_answer();
}

void note_terminal_input(const char *what)
{
    if (isatty(STDIN_FILENO))
        note("reading %s from the terminal; end it by Ctrl-D on a new line", what);
}
