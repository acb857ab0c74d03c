/*
 * Words as bytes.  Images and page data are little-endian on every host: the first byte of a word
 * is its lowest.
 */
#ifndef WORDS_H
#define WORDS_H

#include <stddef.h>
#include <stdint.h>

enum { BYTES_IN_WORD = 4 };

static inline uint32_t word_from_bytes(const unsigned char *bytes)
{
    return (uint32_t)bytes[0] | (uint32_t)bytes[1] << 8 | (uint32_t)bytes[2] << 16 |
           (uint32_t)bytes[3] << 24;
}

static inline void words_from_bytes(uint32_t *words, const unsigned char *bytes, size_t n)
{
    for (size_t i = 0; i < n; i++)
        words[i] = word_from_bytes(bytes + i * BYTES_IN_WORD);
}

static inline void bytes_from_words(unsigned char *bytes, const uint32_t *words, size_t n)
{
    for (size_t i = 0; i < n; i++)
        for (size_t j = 0; j < BYTES_IN_WORD; j++)
            bytes[i * BYTES_IN_WORD + j] = (unsigned char)(words[i] >> 8 * j);
}

#endif
