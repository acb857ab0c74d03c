/*
 * Trianglefire: a flash translation layer for C and C++ firmware.
 *
 * The caller reads and writes logical pages.  The library finds a place on flash for each, keeps
 * the map of these places on flash too, holds the entries in use in a small cache, and collects
 * blocks when room runs out.  Its code is proved to give the answers that this header states.
 *
 * How it is used:
 *
 *   1. Choose a geometry, and lend five slices of memory as the state of a node: chip, spare,
 *      directory, cache, record.  Their sizes are below.
 *   2. Call tf_format once.
 *   3. From then on call tf_read, tf_write and tf_run with the same geometry and the same slices.
 *   4. Keep the geometry with the node, as the bytes that tf_settings_write makes of it: they, and
 *      tf_settings_read, say years later what to call it with.
 *
 * What every call on a node has in common:
 *
 * - A slice is a pointer to 32-bit words, aligned as uint32_t, and then its count of words.  Behind
 *   the pointer there must be that many words.  An empty slice may be given as NULL, 0.  The slices
 *   of one call must not overlap.
 * - Beyond that a caller can do nothing wrong: every geometry, page number, count of words and
 *   content of the slices has its one answer.  A refusal writes nothing but the counts.
 * - Nothing is kept between calls but what is in the slices, and no memory is allocated.  A call
 *   takes up to 17 KiB of stack.  Calls on different states may run at the same time; calls on one
 *   state may not, and nobody else may change it in between.
 * - The reply is returned (enum tf_reply).  The last slice, counts, takes three words: how many
 *   pages were read, how many were programmed, and how many blocks were erased.  If it has three
 *   words every answer writes them, a refusal 0, 0, 0; if not, the call is refused and writes
 *   nothing there.
 */
#ifndef TRIANGLEFIRE_H
#define TRIANGLEFIRE_H

#include <stddef.h>
#include <stdint.h>

#if SIZE_MAX != UINT64_MAX
#error "libtrianglefire.a is built for a size_t of 64 bits"
#endif

/*
 * ---- Geometry: six numbers, the first arguments of every call --------------------------------
 *
 *   p   pages in a block            1 to 64
 *   w   32-bit words in a page      1 to 512
 *   d   data blocks                 2 or more, d + t at most 1,024
 *   t   translation blocks          2 or more
 *   l   logical pages               1 to (d-1)*p - 1
 *   c   cache entries               1 to 4,096
 *
 * m, the number of translation pages, is l/w rounded up, and is at most (t-1)*p - 1.  These
 * numbers are accepted, and no others.
 */
#define TF_MOST_PAGES_IN_BLOCK 64
#define TF_MOST_WORDS_IN_PAGE 512
#define TF_MOST_BLOCKS 1024
#define TF_MOST_ENTRIES 4096

/* The most requests in one run. */
#define TF_MOST_REQUESTS 1024

/*
 * ---- Replies ----------------------------------------------------------------------------------
 *
 * The tests are made in the order of these numbers, and the first that applies gives the answer.
 * From TF_GEOMETRY on the reply is a refusal: nothing is changed, and the counts are 0, 0, 0.  A
 * request of a run has its own reply, in answers.
 */
enum tf_reply {
    TF_DONE = 0,      /* done */
    TF_UNWRITTEN = 1, /* a read of a page that was never written; the buffer is left as it was */
    TF_GEOMETRY = 2,  /* the geometry is not accepted; answered whatever the counts of words are */
    TF_LENGTH = 3,    /* a slice has another size than below, or a run over TF_MOST_REQUESTS */
    TF_DAMAGED = 4,   /* the state breaks one of the rules below */
    TF_KIND = 5,      /* a request of a run is neither TF_KIND_READ nor TF_KIND_WRITE */
    TF_PAGE = 6       /* the logical page is l or more */
};

/*
 * ---- What the words mean ----------------------------------------------------------------------
 *
 * Pages are numbered through the chip: block b has pages b*p to b*p + p-1.  Blocks 0 to d-1 hold
 * data, blocks d to d+t-1 the map, in translation pages.
 */

/* "No page" in the directory, the cache and the map; and the word of an erased page. */
#define TF_NONE UINT32_C(4294967295)
#define TF_ERASED UINT32_C(4294967295)

/* chip: page n has words n*w to n*w + w-1.  Logical page k is entered in word k%w of translation
 * page k/w: the number of the page that holds it, or TF_NONE. */

/* spare: two words a page.  The owner is the logical page (data) or the number of the translation
 * page (map) that the page holds, TF_NONE while it is erased.  Only an erase sets bits. */
enum { TF_SPARE_STATE = 0, TF_SPARE_OWNER = 1, TF_WORDS_IN_SPARE = 2 };
#define TF_STATE_ERASED UINT32_C(4294967295)
#define TF_STATE_VALID UINT32_C(65535)
#define TF_STATE_INVALID UINT32_C(0)

/* directory: for each translation page number the page that holds it, or TF_NONE. */

/* cache: c entries of three words.  Those in use come first; the words of the others are TF_NONE.
 * Changed is 1 where the map on flash does not have it yet.
 *
 * The entries in use are a protected part, at most c/2 (rounded down), and behind it a trial part.
 * A page that is not cached enters at the front of the trial part; if all c entries are in use, the
 * last of the trial part is dropped for it.  A page that is found in the trial part moves to the
 * front of the protected part; if that is then over c/2, its last goes to the front of the trial
 * part.  A page that is found in the protected part moves to its front. */
enum { TF_ENTRY_LOGICAL = 0, TF_ENTRY_PHYSICAL = 1, TF_ENTRY_CHANGED = 2, TF_WORDS_IN_ENTRY = 3 };

/* record: the open block of each region with the offset of its next page, 0 to p, the number of
 * cache entries in use, and how many of these are protected, 0 in an empty node.
 *
 * A record of five words, stored by firmware with an earlier library, has no number of protected
 * entries and is refused with TF_LENGTH.  Append 0 to it: that is a record of six words, and the
 * state is as sound as it was. */
enum {
    TF_RECORD_OPEN_DATA = 0,
    TF_RECORD_DATA_OFFSET = 1,
    TF_RECORD_OPEN_TRANSLATION = 2,
    TF_RECORD_TRANSLATION_OFFSET = 3,
    TF_RECORD_USED = 4,
    TF_RECORD_PROTECTED = 5,
    TF_RECORD_WORDS = 6
};

/* counts: what the call did to the flash.  Marking a page invalid is not counted. */
enum { TF_COUNTS_READS = 0, TF_COUNTS_PROGRAMS = 1, TF_COUNTS_ERASES = 2, TF_COUNTS_WORDS = 3 };

/* requests: two words each. */
enum { TF_REQUEST_KIND = 0, TF_REQUEST_PAGE = 1, TF_WORDS_IN_REQUEST = 2 };
enum { TF_KIND_READ = 0, TF_KIND_WRITE = 1 };

/*
 * ---- Sizes of the slices, in words ------------------------------------------------------------
 *
 *   chip        (d+t)*p*w       record      TF_RECORD_WORDS     requests    2*n
 *   spare       (d+t)*p*2       counts      TF_COUNTS_WORDS     data        n*w
 *   directory   m               buffer      w                   answers     n
 *   cache       c*3
 *
 * n is the number of requests of a run.  Each size comes in two forms, both computed in 64 bits:
 * as a macro, a constant expression where the geometry is constant, and as a function of numbers
 * that are known only at run time.  The geometry may be one name:
 *
 *     #define NODE 64, 512, 1000, 24, 60000, 1024
 *     static uint32_t chip[TF_CHIP_WORDS(NODE)];
 *
 * No product wraps: a factor past its limit above counts as 0, and the call is refused.
 */
#define TF_CHIP_WORDS(...) TF_CHIP_WORDS_OF(__VA_ARGS__)
#define TF_SPARE_WORDS(...) TF_SPARE_WORDS_OF(__VA_ARGS__)
#define TF_DIRECTORY_WORDS(...) TF_DIRECTORY_WORDS_OF(__VA_ARGS__)
#define TF_CACHE_WORDS(...) TF_CACHE_WORDS_OF(__VA_ARGS__)
#define TF_DATA_WORDS(...) TF_DATA_WORDS_OF(__VA_ARGS__) /* the geometry, then n */

/* The formulas, which the names above and the functions below stand for. */
#define TF_WITHIN(x, most) (UINT64_C(0) + (x) <= (most) ? UINT64_C(0) + (x) : UINT64_C(0))
#define TF_BLOCKS_OF(d, t) TF_WITHIN(UINT64_C(0) + (d) + (t), TF_MOST_BLOCKS)
#define TF_PAGES_OF(p, d, t) (TF_BLOCKS_OF(d, t) * TF_WITHIN(p, TF_MOST_PAGES_IN_BLOCK))
#define TF_CHIP_WORDS_OF(p, w, d, t, l, c) \
    (TF_PAGES_OF(p, d, t) * TF_WITHIN(w, TF_MOST_WORDS_IN_PAGE))
#define TF_SPARE_WORDS_OF(p, w, d, t, l, c) (TF_PAGES_OF(p, d, t) * TF_WORDS_IN_SPARE)
#define TF_DIRECTORY_WORDS_OF(p, w, d, t, l, c) \
    ((w) == 0 ? UINT64_C(0) : (UINT64_C(0) + (l) + (w) - 1) / (w))
#define TF_CACHE_WORDS_OF(p, w, d, t, l, c) (TF_WITHIN(c, TF_MOST_ENTRIES) * TF_WORDS_IN_ENTRY)
#define TF_DATA_WORDS_OF(p, w, d, t, l, c, n) \
    (TF_WITHIN(n, TF_MOST_REQUESTS) * TF_WITHIN(w, TF_MOST_WORDS_IN_PAGE))

static inline uint64_t tf_chip_words(uint32_t p, uint32_t w, uint32_t d, uint32_t t, uint32_t l,
                                     uint32_t c)
{
    (void)l, (void)c;
    return TF_CHIP_WORDS_OF(p, w, d, t, l, c);
}

static inline uint64_t tf_spare_words(uint32_t p, uint32_t w, uint32_t d, uint32_t t, uint32_t l,
                                      uint32_t c)
{
    (void)w, (void)l, (void)c;
    return TF_SPARE_WORDS_OF(p, w, d, t, l, c);
}

static inline uint64_t tf_directory_words(uint32_t p, uint32_t w, uint32_t d, uint32_t t,
                                          uint32_t l, uint32_t c)
{
    (void)p, (void)d, (void)t, (void)c;
    return TF_DIRECTORY_WORDS_OF(p, w, d, t, l, c);
}

static inline uint64_t tf_cache_words(uint32_t p, uint32_t w, uint32_t d, uint32_t t, uint32_t l,
                                      uint32_t c)
{
    (void)p, (void)w, (void)d, (void)t, (void)l;
    return TF_CACHE_WORDS_OF(p, w, d, t, l, c);
}

static inline uint64_t tf_data_words(uint32_t p, uint32_t w, uint32_t d, uint32_t t, uint32_t l,
                                     uint32_t c, size_t n)
{
    (void)p, (void)d, (void)t, (void)l, (void)c;
    return TF_DATA_WORDS_OF(p, w, d, t, l, c, n);
}

/*
 * ---- What TF_DAMAGED tests --------------------------------------------------------------------
 *
 * Every call but tf_format first sees that the state is sound, and touches nothing otherwise.  A
 * state is sound exactly when:
 *
 *   1. Every state word is one of the three.  Erased pages have owner TF_NONE and only erased
 *      words; the others have an owner below l (data) or m (map).
 *   2. No two valid pages of a region have the same owner.
 *   3. The open blocks lie in their regions, the offsets in 0 to p.  In an open block the pages
 *      before the offset are programmed and the others erased; every other block is wholly erased
 *      or has no erased page; and each region has a wholly erased block besides its open one.
 *   4. The directory names, for each translation page number, the valid page with that owner, or
 *      TF_NONE where there is none.
 *   5. At most c entries are in use, of different logical pages below l, with changed 0 or 1; the
 *      words of the others are TF_NONE.  At most c/2 (rounded down) are protected, and no more than
 *      are in use.
 *   6. The place of each logical page (its cache entry's, else the map's word, else TF_NONE) is
 *      the valid data page that it owns, or TF_NONE where there is none; words of the map past l
 *      are TF_NONE.
 *   7. An unchanged cache entry equals the map's word, or TF_NONE where its translation page does
 *      not exist.
 *
 * tf_format leaves a sound state, and every call leaves a sound state sound.
 */

#ifdef __cplusplus
extern "C" {
#endif

/*
 * ---- The five calls on a node -----------------------------------------------------------------
 *
 * p, w, d, t, l, c are the geometry; counts takes the three counts.
 */

/*
 * Formats a node: erases every block, empties directory and cache, and opens blocks 0 and d.  What
 * the slices held before is not looked at.
 *
 *   TF_DONE       chip, spare, directory, cache and record are those of an empty node; the counts
 *                 are 0, 0, d+t
 *   TF_GEOMETRY   refused, nothing changed
 *   TF_LENGTH     refused, nothing changed
 */
uint32_t tf_format(uint32_t p, uint32_t w, uint32_t d, uint32_t t, uint32_t l, uint32_t c,
                   uint32_t *chip, size_t chip_words,
                   uint32_t *spare, size_t spare_words,
                   uint32_t *directory, size_t directory_words,
                   uint32_t *cache, size_t cache_words,
                   uint32_t *record, size_t record_words,
                   uint32_t *counts, size_t counts_words);

/*
 * Says whether a state is sound, and changes nothing but the counts, which are 0, 0, 0.
 *
 *   TF_DONE       the state is sound
 *   TF_GEOMETRY   refused
 *   TF_LENGTH     refused
 *   TF_DAMAGED    the state is not sound
 */
uint32_t tf_check(uint32_t p, uint32_t w, uint32_t d, uint32_t t, uint32_t l, uint32_t c,
                  const uint32_t *chip, size_t chip_words,
                  const uint32_t *spare, size_t spare_words,
                  const uint32_t *directory, size_t directory_words,
                  const uint32_t *cache, size_t cache_words,
                  const uint32_t *record, size_t record_words,
                  uint32_t *counts, size_t counts_words);

/*
 * Reads logical page `page` into buffer, w words.  The page's place is looked up in the cache, and
 * on a miss in the map: its entry moves or enters as said of the cache above, and the entry that is
 * dropped for it is first written to the map if it was changed.  So a read, too, may change every
 * slice of the state.  It takes at most 2p+3 reads, programs and erases.
 *
 *   TF_DONE       buffer holds the words that were last written to the page
 *   TF_UNWRITTEN  the page was never written; buffer is untouched, and the state and the counts are
 *                 those of the look-up
 *   TF_GEOMETRY   refused, nothing changed
 *   TF_LENGTH     refused, nothing changed
 *   TF_DAMAGED    refused, nothing changed
 *   TF_PAGE       refused, nothing changed
 */
uint32_t tf_read(uint32_t p, uint32_t w, uint32_t d, uint32_t t, uint32_t l, uint32_t c,
                 uint32_t page,
                 uint32_t *chip, size_t chip_words,
                 uint32_t *spare, size_t spare_words,
                 uint32_t *directory, size_t directory_words,
                 uint32_t *cache, size_t cache_words,
                 uint32_t *record, size_t record_words,
                 uint32_t *buffer, size_t buffer_words,
                 uint32_t *counts, size_t counts_words);

/*
 * Writes the w words of buffer as logical page `page`.  There is always room: in a sound state no
 * write of a page below l is refused.  It takes at most (2p+1)*(p+1) reads, programs and erases.
 *
 *   TF_DONE       the page reads as the words of buffer from now on, and every other page as before
 *   TF_GEOMETRY   refused, nothing changed
 *   TF_LENGTH     refused, nothing changed
 *   TF_DAMAGED    refused, nothing changed
 *   TF_PAGE       refused, nothing changed
 */
uint32_t tf_write(uint32_t p, uint32_t w, uint32_t d, uint32_t t, uint32_t l, uint32_t c,
                  uint32_t page,
                  uint32_t *chip, size_t chip_words,
                  uint32_t *spare, size_t spare_words,
                  uint32_t *directory, size_t directory_words,
                  uint32_t *cache, size_t cache_words,
                  uint32_t *record, size_t record_words,
                  const uint32_t *buffer, size_t buffer_words,
                  uint32_t *counts, size_t counts_words);

/*
 * Serves n = requests_words/2 requests in their order, n at most TF_MOST_REQUESTS, each as tf_read
 * or tf_write would, for one test of the state.  Request i reads into, or writes from, words i*w to
 * i*w + w-1 of data, and its own reply goes to answers[i]: TF_DONE, TF_UNWRITTEN, TF_KIND or
 * TF_PAGE.  A request that is refused changes nothing but its answer, and the run goes on; a read
 * that is not TF_DONE leaves its words of data as they were, and so does every write.
 *
 *   TF_DONE       every request has its answer; the counts are the sums of theirs.  With no
 *                 request nothing is changed
 *   TF_GEOMETRY   refused, nothing changed, no answer given
 *   TF_LENGTH     refused, nothing changed, no answer given; also for an odd number of request
 *                 words, and for more than TF_MOST_REQUESTS
 *   TF_DAMAGED    refused, nothing changed, no answer given
 */
uint32_t tf_run(uint32_t p, uint32_t w, uint32_t d, uint32_t t, uint32_t l, uint32_t c,
                uint32_t *chip, size_t chip_words,
                uint32_t *spare, size_t spare_words,
                uint32_t *directory, size_t directory_words,
                uint32_t *cache, size_t cache_words,
                uint32_t *record, size_t record_words,
                const uint32_t *requests, size_t requests_words,
                uint32_t *data, size_t data_words,
                uint32_t *answers, size_t answers_words,
                uint32_t *counts, size_t counts_words);

/*
 * ---- Settings: the geometry kept with the node ------------------------------------------------
 *
 * A settings record holds the six numbers as bytes, for a node that is opened years later.  It is
 * the caller's to keep, outside the lent chip: no call above looks for it there.  These two calls
 * are lent bytes and words of their own and nothing of the node, take no counts, and have answers
 * of their own, which are not those of enum tf_reply.
 *
 * A record is a row of fields: a tag of one byte, the length of the value in two, the value.  All
 * numbers are big-endian.  Version 1 is these seven fields, in this order, 36 bytes:
 *
 *   tag      1         2   3   4   5   6   7
 *   length   1         2   2   2   2   4   2
 *   value    1         p   w   d   t   l   c
 *
 * and any number of whole fields of higher tags after them, which the reader skips and the writer
 * does not write.  For each accepted geometry there is one record of 36 bytes, and no other.
 */
#define TF_SETTINGS_BYTES 36  /* what tf_settings_write makes */
#define TF_SETTINGS_NUMBERS 6 /* p, w, d, t, l, c: what tf_settings_read hands back */

/* The reader goes field by field and gives the first of these that applies, the version's right
 * after its field. */
enum tf_settings {
    TF_SETTINGS_ACCEPTED = 0, /* read, or written */
    TF_SETTINGS_SHORT = 1,    /* fewer bytes than the field needs, whatever they are */
    TF_SETTINGS_TAG = 2,      /* the field has another tag */
    TF_SETTINGS_LENGTH = 3,   /* the field has another length */
    TF_SETTINGS_VERSION = 4,  /* a version that this library does not know */
    TF_SETTINGS_AFTER = 5,    /* after tag 7, bytes that are not whole fields of higher tags */
    TF_SETTINGS_GEOMETRY = 6, /* the geometry is not accepted */
    TF_SETTINGS_PLACE = 7     /* the slice to be written has another length than it should */
};

/*
 * Reads a settings record of bytes_n bytes into numbers, TF_SETTINGS_NUMBERS words.
 *
 *   TF_SETTINGS_ACCEPTED   numbers holds p, w, d, t, l, c, which the calls above accept
 *   1 to 6                 refused; numbers holds six zeros
 *   TF_SETTINGS_PLACE      numbers_n is not TF_SETTINGS_NUMBERS, whatever the bytes are: nothing is
 *                          written
 */
uint32_t tf_settings_read(const uint8_t *bytes, size_t bytes_n,
                          uint32_t *numbers, size_t numbers_n);

/*
 * Writes the settings record of a geometry to place, TF_SETTINGS_BYTES bytes, as version 1.
 *
 *   TF_SETTINGS_ACCEPTED   place holds the record, from which tf_settings_read gives the six numbers
 *   TF_SETTINGS_GEOMETRY   refused, nothing changed
 *   TF_SETTINGS_PLACE      place_n is not TF_SETTINGS_BYTES: refused, nothing changed
 */
uint32_t tf_settings_write(uint32_t p, uint32_t w, uint32_t d, uint32_t t, uint32_t l, uint32_t c,
                           uint8_t *place, size_t place_n);

#ifdef __cplusplus
}
#endif

#endif
