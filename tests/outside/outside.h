/* What is compared (the encoder of the library, and the word decoder and the field behind it), words and frames in packed bits,
   and the counting of comparisons. */
#ifndef OUTSIDE_H
#define OUTSIDE_H

#include "gazenohyri.h"

#include <stdbool.h>

/* Returns the number. The block gets three values of 32 bits, the low byte first: how many places were changed, the first place,
   and the second; zero where there is none. */
enum { WORD_BLOCK_BYTES = 12 };
uint32_t probe_word(size_t n, const uint8_t *received, size_t received_bytes, uint8_t *word, size_t word_bytes, uint8_t *block,
                    size_t block_bytes);

/* a^(e mod 255) as a byte. */
uint8_t probe_power(size_t e);

/* The exponent below 255 of which the byte x is the power; 0 for x = 0. */
size_t probe_logarithm(uint8_t x);

/* Bits go from the top of a byte down. */
enum {
    SHORTEST = 18,
    LONGEST = 256,
    LONGEST_BYTES = LONGEST / 8,
    CHECKS = 16,           /* the bits that make a word divisible by g */
    BESIDE_DATA = CHECKS + 1 /* these and the parity bit */
};

size_t bytes_of(size_t bits);
unsigned bit_at(const uint8_t *packed, size_t place);
void flip(uint8_t *packed, size_t place);
size_t ones(const uint8_t *packed, size_t bits);

/* The bits at and after `place` as a number, the first of them on top. */
unsigned number_at(const uint8_t *packed, size_t place, size_t bits);

uint64_t random_below(uint64_t bound);

/* Random bits, the spare ones zero. */
void random_bits(uint8_t *packed, size_t bits);

/* The frame that the encoder makes of `data`. Ends the program if it refuses. */
void encode(size_t n, const uint8_t *data, uint8_t *frame);

/* Column j of a frame, packed like a row. */
void column_of(size_t n, const uint8_t *frame, size_t j, uint8_t *word);

/* One kind of comparison: its cases are counted, its first differences shown, and it is told in one line: subject, number of
   cases, what these are and against whom. */
struct comparison {
    const char *subject, *what;
    unsigned long cases, differences;
};

/* Counts a case. True where it is a difference that is to be shown. */
bool differs(struct comparison *kind, bool same);

/* Shows a word of n bits in hex, or a number, under the name of who gave it. */
void show_word(const char *who, size_t n, const uint8_t *word);
void show_number(const char *who, unsigned long number);

/* Prints the line, and counts it as passed where there were cases and none differs. */
void tell(const struct comparison *kind);

/* Prints 'N passed, M failed' over those lines; the exit status. */
int sum_up(void);

#endif
