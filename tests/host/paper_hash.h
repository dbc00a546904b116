/*
 * The function HASH of document 000, section 5.5 (Table 5-5, PROGRAM Hash Calculation), in C: which bit of the filter
 * an address falls on. The model folds by it, and hash.c holds the archive to it.
 */
#ifndef PAPER_HASH_H
#define PAPER_HASH_H

#include <stdbool.h>
#include <stdint.h>

/* HASH (AL, 32, X): the address's length in bytes, 1 to 6, and its bits, x[0] the least significant, which is sent
   first. Answers 0 to 63. */
unsigned paper_hash(unsigned al, const bool *x);

/* The same of so many bytes as they stand in memory, the first to be sent first; and of six. */
unsigned hash_of_first(const uint8_t *address, unsigned bytes);
unsigned hash_of(const uint8_t *address);

/* The filter with this bit alone. */
uint64_t bit_of_first(const uint8_t *address, unsigned bytes);
uint64_t bit_of(const uint8_t *address);

#endif
