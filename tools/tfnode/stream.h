/* Page data on standard input and output, as bytes. */
#ifndef STREAM_H
#define STREAM_H

#include "node.h"

#include <stddef.h>
#include <stdint.h>

/* Bytes in a page of the node. */
size_t page_bytes(const struct node *node);

/* Memory for n words; fails if there is none. */
uint32_t *allocate_words(size_t n);

/*
 * Reads up to `pages` pages from standard input into `words`; a page that the data ends within is
 * filled up with zero bytes.  Gives the bytes that were read.
 */
size_t read_pages(const struct node *node, uint32_t *words, size_t pages);

/* How many pages that many bytes make, the last perhaps filled up. */
uint64_t pages_of_bytes(const struct node *node, uint64_t bytes);

/* The pages that are left on standard input where that is a file, else 0. */
uint64_t pages_expected(const struct node *node);

/* Writes pages to standard output; fails if they cannot be. */
void write_pages(const struct node *node, const uint32_t *words, size_t pages);

/* Tells a person at a terminal that the command waits for them. */
void note_terminal_input(const char *what);

#endif
