/* Gazenohyri: encodes, repairs and reads square code frames, and receives them in pieces.
 *
 * A frame is a square of n by n bits, 18 <= n <= 256. Its rows and its columns are words of an extended BCH code that mends two
 * wrong bits. Its data, k by k bits with k = n - 17, stand in the upper left corner. A row takes as few whole bytes as it can,
 * its first bit on top of the first byte; what is left over behind its last bit is spare. docs/RULES.md has the exact rules.
 *
 * What is promised, for every n:
 *  - Each function answers any bytes, lengths, n, allowance and state. What it can't take it refuses by number, and then no
 *    byte of the output, the frame or the data, changes.
 *  - A frame may come in pieces, cut in any way, empty ones included. From a fresh state on they end in the same buffer and the
 *    same state as the frame in one piece, so decode answers the same. A refused piece changes neither the buffer nor the
 *    state's n and bytes so far, so it makes no difference to what follows.
 *  - A written frame, spoiled so that at most two of its rows have three or more wrong bits, comes back exactly, in at most two
 *    passes, at any allowance from 2 to GAZENOHYRI_GREATEST_ALLOWANCE, unless all its code bits read as ones. So do any eight
 *    wrong bits, any two rows lost whole, and any two columns. Whatever the allowance, number 0 then means the written frame,
 *    and the block of decode counts just the wrong bits.
 *  - A frame whose code bits are all ones is erased: encode makes none, and read and decode take none, whatever n is.
 *
 * Where the promise ends: past that class a repair can be WRONG. Sixteen wrong bits, in four rows and four columns of a frame
 * of 31, are 'repaired' in two passes to a frame that was never written, with number 0. Nothing in the block tells such a
 * frame from a good one: where a wrong frame does harm, keep the received one, and keep a checksum of the data in the data.
 * And at n = 256 a frame that is erased but for a few bits is repaired to all ones, with number 0; reading that gives 10.
 *
 * What a caller owes:
 *  - Each pointer is good for its length: to read for the input, to write for the output and for the block. Where the length
 *    is 0 it may be NULL. An empty piece is good; with any other buffer of length 0 the call is refused, since no n has that
 *    length, and no block has it. Bytes need no alignment. Those of the output and of the block need not be set before.
 *  - Input, output and block do not overlap, and during the call no other thread writes the input, or touches the output or
 *    the block. The input of receive is the piece, and its output the frame.
 *  - Where a frame comes in pieces, its buffer is lent from call to call, and nobody else writes to it between them.
 * The functions keep no state, allocate nothing and do no input or output, so any number of threads may call them at once. They
 * take less than 4 KiB of stack. The state of receive is a plain number, which the caller keeps.
 */
#ifndef GAZENOHYRI_H
#define GAZENOHYRI_H

#include <stddef.h>
#include <stdint.h>

/* Says of a buffer that it overlaps no other: `restrict` in C, the compilers' own word for it in C++, else nothing. */
#if defined __STDC_VERSION__ && __STDC_VERSION__ >= 199901L
#define GAZENOHYRI_RESTRICT restrict
#elif defined __GNUC__ || defined _MSC_VER
#define GAZENOHYRI_RESTRICT __restrict
#else
#define GAZENOHYRI_RESTRICT
#endif

#ifdef __cplusplus
extern "C" {
#endif

enum {
    GAZENOHYRI_SMALLEST_N = 18,
    GAZENOHYRI_GREATEST_N = 256,
    GAZENOHYRI_CHECK_BITS = 17,            /* n - k */
    GAZENOHYRI_SMALLEST_ALLOWANCE = 1,
    GAZENOHYRI_GREATEST_ALLOWANCE = 200,
    GAZENOHYRI_GREATEST_FRAME_BYTES = 8192, /* a buffer of this size holds any frame, */
    GAZENOHYRI_GREATEST_DATA_BYTES = 7170,  /* and one of this size any data */
    GAZENOHYRI_BLOCK_BYTES = 20             /* the block of decode, whatever n is */
};

/* The number that a call answers: 0, or the first of the others that applies, checked in this order; but 11 comes ahead of all,
 * and 10 ahead of 6. */
enum {
    GAZENOHYRI_OK = 0,                /* clean, repaired, encoded or read: the output is the frame or the data; a piece: taken */
    GAZENOHYRI_BAD_N = 1,             /* n is not 18..256 */
    GAZENOHYRI_BAD_INPUT_LENGTH = 2,  /* the input's length is not exactly that of n (receive: the frame's length) */
    GAZENOHYRI_BAD_OUTPUT_LENGTH = 3, /* the output's length is not exactly that of n */
    GAZENOHYRI_BAD_ALLOWANCE = 4,     /* the allowance is 0, or above GAZENOHYRI_GREATEST_ALLOWANCE (decode) */
    GAZENOHYRI_SPARE_BIT_SET = 5,     /* the data have a spare bit set (encode) */
    GAZENOHYRI_NOT_CODEWORDS = 6,     /* not a frame of codewords, spare bits aside (read) */
    GAZENOHYRI_STUCK = 7,             /* pass 2 or a later one changed nothing, and not all words are codewords (decode) */
    GAZENOHYRI_SPENT = 8,             /* the allowance is used up, likewise (decode) */
    GAZENOHYRI_ERASED = 10,           /* all code bits are ones: of the frame given, or of the frame that the data would have */
    GAZENOHYRI_BAD_BLOCK_LENGTH = 11, /* not the length of a block: checked first of all, nothing is written (decode) */
    GAZENOHYRI_PAST_FRAME = 14        /* the piece would run past the frame, or the bytes so far do (receive) */
};

/* The length in bytes of a frame, and of its data; 0 where n is not 18..256. */
static inline size_t gazenohyri_frame_bytes(size_t n)
{
    return n < GAZENOHYRI_SMALLEST_N || n > GAZENOHYRI_GREATEST_N ? 0 : n * ((n + 7) / 8);
}

static inline size_t gazenohyri_data_bytes(size_t n)
{
    return gazenohyri_frame_bytes(n) == 0 ? 0 : (n - GAZENOHYRI_CHECK_BITS) * ((n - GAZENOHYRI_CHECK_BITS + 7) / 8);
}

/* Writes to `frame` the one frame of codewords that has these data, spare bits zero. Answers 0, 1, 2, 3, 5 or 10; 10 is
 * for one message alone, n = 256 and all 239 by 239 bits of it ones.
 * data_bytes: gazenohyri_data_bytes(n). frame_bytes: gazenohyri_frame_bytes(n). */
uint32_t gazenohyri_encode(size_t n, const uint8_t *GAZENOHYRI_RESTRICT data, size_t data_bytes,
                           uint8_t *GAZENOHYRI_RESTRICT frame, size_t frame_bytes);

/* Repairs a received frame by passes over its rows, its columns, its rows and so on, `allowance` of them at most; 2 are enough
 * for all that is promised above. Received spare bits are not looked at. Returns the number, and writes to `block` five values
 * of 32 bits, the low byte of each first: the number once more, the passes, the bits, the rows, the columns. The block is written
 * on every call but one, number 11; gazenohyri_number and the four functions behind it read it.
 * Number 0: `frame` is a frame of codewords, spare bits zero. It was clean if it took 0 passes, and was repaired otherwise.
 * Numbers 7 and 8: `frame` is what was received, byte for byte, spare bits too: no half-mended frame is handed out.
 * Number 10: erased, nothing is decoded and `frame` is untouched; the block has the number, then zeros.
 * Numbers 1 to 4: refused, `frame` is untouched; the block has the number, then zeros.
 * Number 11: refused, neither `frame` nor `block` is touched.
 * received_bytes and frame_bytes: gazenohyri_frame_bytes(n). block_bytes: GAZENOHYRI_BLOCK_BYTES. */
uint32_t gazenohyri_decode(size_t n, size_t allowance, const uint8_t *GAZENOHYRI_RESTRICT received, size_t received_bytes,
                           uint8_t *GAZENOHYRI_RESTRICT frame, size_t frame_bytes, uint8_t *GAZENOHYRI_RESTRICT block,
                           size_t block_bytes);

/* Writes to `data` the data of a frame, spare bits zero. It mends nothing: with one wrong bit in the frame the answer is 6 and
 * `data` is untouched. The frame's spare bits are not looked at. Answers 0, 1, 2, 3, 6 or 10.
 * frame_bytes: gazenohyri_frame_bytes(n). data_bytes: gazenohyri_data_bytes(n). */
uint32_t gazenohyri_read(size_t n, const uint8_t *GAZENOHYRI_RESTRICT frame, size_t frame_bytes,
                         uint8_t *GAZENOHYRI_RESTRICT data, size_t data_bytes);

/* Puts a piece at its place in `frame`, right behind the bytes so far, and touches no other byte. Takes a state and returns the
 * next: gazenohyri_fresh makes the first, and the functions at the end read it. Any number is taken for a state. Its bits are
 *    0 to 7   the number of the call that returned it: 0, 1, 2 or 14
 *    8        1 if more is wanted
 *    9 to 15  zero
 *   16 to 31  n
 *   32 to 63  the bytes so far
 * and bits 0 to 15 are not looked at on the way in. It is kept by the caller and owned by nobody: it may be copied, and dropped.
 * Number 0: the piece lies in `frame`, and the bytes so far have grown by its length. More is wanted exactly while they are fewer
 * than the frame has. An empty piece is good, and is so where the frame is whole too.
 * Numbers 1, 2 and 14: refused, `frame` is untouched and bits 16 to 63 come back as they went in; no more is wanted. Where there
 * are more bytes so far than the frame has, even an empty piece is refused.
 * frame_bytes: gazenohyri_frame_bytes(n). piece_bytes: 0 to as many as are missing. */
uint64_t gazenohyri_receive(uint64_t state, const uint8_t *GAZENOHYRI_RESTRICT piece, size_t piece_bytes,
                            uint8_t *GAZENOHYRI_RESTRICT frame, size_t frame_bytes);

/* Value i of a block that decode has written: four bytes, the low one first, whatever the processor's own order. */
static inline uint32_t gazenohyri_value(const uint8_t *block, size_t i)
{
    const uint8_t *at = block + 4 * i;
    return (uint32_t)at[0] | (uint32_t)at[1] << 8 | (uint32_t)at[2] << 16 | (uint32_t)at[3] << 24;
}

/* The number, the one that decode returned. */
static inline uint32_t gazenohyri_number(const uint8_t *block)
{
    return gazenohyri_value(block, 0);
}

/* The passes made; 0 where the number is 1 to 4, or 10. */
static inline uint32_t gazenohyri_passes(const uint8_t *block)
{
    return gazenohyri_value(block, 1);
}

/* How many code bits are, after the last pass, not as they were received: a bit that was flipped and flipped back is not counted.
 * At number 0 the output differs from the input in so many code bits; within the promise above these are the wrong ones. For 7 and
 * 8 it counts in a frame that is not handed out. 0 where the frame was clean, and where the number is 1 to 4, or 10. */
static inline uint32_t gazenohyri_bits(const uint8_t *block)
{
    return gazenohyri_value(block, 2);
}

/* The rows, and the columns, that were not codewords after the last pass; 0 unless the number is 7 or 8. */
static inline uint32_t gazenohyri_bad_rows(const uint8_t *block)
{
    return gazenohyri_value(block, 3);
}

static inline uint32_t gazenohyri_bad_columns(const uint8_t *block)
{
    return gazenohyri_value(block, 4);
}

/* A fresh state: n, and no bytes so far. Whether more is wanted it does not say yet: the call with the first piece does, and that
 * may be an empty one. An n past 65,535 can't be held, and becomes 0, which is refused too. */
static inline uint64_t gazenohyri_fresh(size_t n)
{
    return n > 0xFFFF ? 0 : (uint64_t)n << 16;
}

/* The number of the call that returned the state; 0 for a fresh one. */
static inline uint32_t gazenohyri_state_number(uint64_t state)
{
    return (uint32_t)(state & 0xFF);
}

/* 1 if the call that returned the state wants more, else 0; 0 for a fresh one. */
static inline int gazenohyri_state_more(uint64_t state)
{
    return (int)(state >> 8 & 1);
}

/* The n of the state, whether a frame can have it or not. */
static inline size_t gazenohyri_state_n(uint64_t state)
{
    return (size_t)(state >> 16 & 0xFFFF);
}

/* The bytes so far: how many of the frame lie in its buffer. */
static inline size_t gazenohyri_state_bytes(uint64_t state)
{
    return (size_t)(state >> 32);
}

/* A fresh state with the same n, for the frame from its start or for the next one. Of the buffer nothing is promised then. */
static inline uint64_t gazenohyri_reset(uint64_t state)
{
    return gazenohyri_fresh(gazenohyri_state_n(state));
}

#ifdef __cplusplus
}
#endif

#endif
