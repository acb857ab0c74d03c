/*
 * A demand-cached flash translation layer: the five public calls, the settings
 * record, and two helpers for tests.
 *
 * Every slice is a pointer to 32-bit words followed by its count of words (bytes
 * in the settings record); an empty slice may come as NULL, 0.  Slices do not
 * overlap.  The whole state is the lent memory: nothing else is kept between calls
 * but the four variables for studies.
 *
 * The geometry is six numbers: p pages in a block, w words in a page, d data
 * blocks, t translation blocks, l logical pages, c cache entries.
 *
 * The lent state is five slices: chip, spare (two words a page), directory,
 * cache (three words an entry) and record (six words: open data block, its next
 * offset, open translation block, its next offset, used cache entries, protected
 * cache entries).
 *
 * `counts` takes three words: reads, programs, erases.  With any other length
 * nothing is written there; with three they are written in every answer.
 *
 * Each call returns the reply number.  The soundness check keeps about 270 KiB
 * of scratch on the stack and allocates nothing.
 */
#ifndef INDEPENDENT_H
#define INDEPENDENT_H

#include <stddef.h>
#include <stdint.h>

enum {
    IND_DONE = 0,
    IND_UNWRITTEN = 1,
    IND_GEOMETRY = 2,
    IND_LENGTH = 3,
    IND_DAMAGED = 4,
    IND_KIND = 5,
    IND_PAGE = 6
};

uint32_t ind_format(uint32_t p, uint32_t w, uint32_t d, uint32_t t, uint32_t l, uint32_t c,
                    uint32_t *chip, size_t chip_n, uint32_t *spare, size_t spare_n,
                    uint32_t *directory, size_t directory_n, uint32_t *cache, size_t cache_n,
                    uint32_t *record, size_t record_n, uint32_t *counts, size_t counts_n);

uint32_t ind_check(uint32_t p, uint32_t w, uint32_t d, uint32_t t, uint32_t l, uint32_t c,
                   const uint32_t *chip, size_t chip_n, const uint32_t *spare, size_t spare_n,
                   const uint32_t *directory, size_t directory_n,
                   const uint32_t *cache, size_t cache_n,
                   const uint32_t *record, size_t record_n, uint32_t *counts, size_t counts_n);

/* DONE fills the buffer of w words; any other answer leaves it. */
uint32_t ind_read(uint32_t p, uint32_t w, uint32_t d, uint32_t t, uint32_t l, uint32_t c,
                  uint32_t page,
                  uint32_t *chip, size_t chip_n, uint32_t *spare, size_t spare_n,
                  uint32_t *directory, size_t directory_n, uint32_t *cache, size_t cache_n,
                  uint32_t *record, size_t record_n, uint32_t *buffer, size_t buffer_n,
                  uint32_t *counts, size_t counts_n);

uint32_t ind_write(uint32_t p, uint32_t w, uint32_t d, uint32_t t, uint32_t l, uint32_t c,
                   uint32_t page,
                   uint32_t *chip, size_t chip_n, uint32_t *spare, size_t spare_n,
                   uint32_t *directory, size_t directory_n, uint32_t *cache, size_t cache_n,
                   uint32_t *record, size_t record_n, const uint32_t *buffer, size_t buffer_n,
                   uint32_t *counts, size_t counts_n);

/*
 * A request is two words, kind (0 read, 1 write) and logical page.  Record i
 * uses words i*w to i*w+w-1 of data, and its reply goes to answers[i].
 */
uint32_t ind_run(uint32_t p, uint32_t w, uint32_t d, uint32_t t, uint32_t l, uint32_t c,
                 uint32_t *chip, size_t chip_n, uint32_t *spare, size_t spare_n,
                 uint32_t *directory, size_t directory_n, uint32_t *cache, size_t cache_n,
                 uint32_t *record, size_t record_n,
                 const uint32_t *requests, size_t requests_n, uint32_t *data, size_t data_n,
                 uint32_t *answers, size_t answers_n, uint32_t *counts, size_t counts_n);

/*
 * For tests: 0 if the state is sound, else the number (1 to 7) of the first
 * rule of soundness that fails, tried in number order; -1 if the geometry is
 * not accepted or one of the five lengths is wrong.  When a rule fails, *where
 * tells the place (where may be NULL):
 *   rule 1    the lowest page that breaks it
 *   rule 2    the later of the first two pages with one owner
 *   rule 3    a block: the open block as recorded, if it or its offset is out
 *             of range, or if its region has no erased block besides it; else
 *             the block whose pages are wrong
 *   rule 4    the translation page number
 *   rules 5, 7  the cache rank (c if too many entries are said to be used or
 *             protected)
 *   rule 6    the logical page (l or more for a word past the last)
 * It keeps about 770 KiB of scratch on the stack.
 */
int ind_first_broken_rule(uint32_t p, uint32_t w, uint32_t d, uint32_t t, uint32_t l, uint32_t c,
                          const uint32_t *chip, size_t chip_n,
                          const uint32_t *spare, size_t spare_n,
                          const uint32_t *directory, size_t directory_n,
                          const uint32_t *cache, size_t cache_n,
                          const uint32_t *record, size_t record_n, uint32_t *where);

/*
 * For studies of the rules, not for a recorder.  ind_rule says by which rule a
 * dropped entry is written back: P2's, all changed entries of its translation
 * page together, or 01's as it stood before P2, that one entry.
 *
 * ind_order says how the cache is kept: as P5 has it, in a protected and a trial
 * part, or as 01 had it before, plain least recently used: hit or miss, the entry
 * goes in front, and the record's number of protected entries is left as it is, 0
 * from a format on.  What a sound state is doesn't go by ind_order.
 *
 * And the programs and the reads of translation pages by all calls, whoever made
 * them, which a call's counts don't tell from those of data pages: set them to 0
 * to begin anew.
 */
enum ind_rule { IND_NEIGHBOURS, IND_ONE_ENTRY };
extern enum ind_rule ind_rule; /* IND_NEIGHBOURS at the start */
enum ind_order { IND_SEGMENTED, IND_PLAIN };
extern enum ind_order ind_order; /* IND_SEGMENTED at the start */
extern uint64_t ind_translation_programs;
extern uint64_t ind_translation_reads;

/* The answers of the settings record, tried in this order but for PLACE. */
enum {
    IND_SETTINGS_DONE = 0,
    IND_SETTINGS_SHORT = 1,   /* fewer bytes left than the field needs */
    IND_SETTINGS_TAG = 2,     /* another tag than the field's */
    IND_SETTINGS_LENGTH = 3,  /* another length than the field's */
    IND_SETTINGS_VERSION = 4, /* no such version */
    IND_SETTINGS_AFTER = 5,   /* after the last field, not whole fields of higher tags */
    IND_SETTINGS_GEOMETRY = 6,
    IND_SETTINGS_PLACE = 7 /* not six numbers to read into, or not 36 bytes to write to */
};

enum { IND_SETTINGS_NUMBERS = 6, IND_SETTINGS_BYTES = 36 };

/*
 * Hands back p, w, d, t, l, c, or six zeros with a refusal.  PLACE is tested
 * first, and then nothing is written.
 */
uint32_t ind_settings_read(const uint8_t *bytes, size_t bytes_n, uint32_t *numbers,
                           size_t numbers_n);

/* GEOMETRY, then PLACE; a refusal changes nothing. */
uint32_t ind_settings_write(uint32_t p, uint32_t w, uint32_t d, uint32_t t, uint32_t l, uint32_t c,
                            uint8_t *place, size_t place_n);

/*
 * For tests and tools: the reader's answer again, with the numbers of the fields
 * that were read, whatever geometry they make, and zeros for the others.  *where
 * tells the byte at which a refusal stands:
 *   SHORT     the first of the field that is cut (bytes_n if nothing of it is there)
 *   TAG       the tag
 *   LENGTH    the first of the length
 *   VERSION   the version's value
 *   AFTER     the first of the field that is cut or has a low tag
 * and is 0 with GEOMETRY and DONE.
 */
uint32_t ind_settings_where(const uint8_t *bytes, size_t bytes_n,
                            uint32_t numbers[IND_SETTINGS_NUMBERS], size_t *where);

#endif
