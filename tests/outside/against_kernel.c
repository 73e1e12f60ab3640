/* The library against lib/bch.c of the Linux kernel, whose words have whole bytes of data: k = 8, 16, .., 232. */
#include "outside.h"

#include <linux/bch.h>
#include <stdio.h>
#include <string.h>

enum {
    SHORTEST_BYTES_OF_DATA = 1,
    LONGEST_BYTES_OF_DATA = 29 /* with the checks, 248 of the 255 bits that the field has places for */
};

/* The kernel's tables of powers and logarithms against ours. Both give the logarithm of 0 as 0. */
static void compare_field(struct bch_control *bch)
{
    struct comparison powers = {"field", "powers of a against lib/bch.c", 0, 0};
    struct comparison logarithms = {"field", "logarithms against lib/bch.c", 0, 0};
    for (unsigned i = 0; i <= bch->n; i++) {
        unsigned power = probe_power(i), logarithm = probe_logarithm(i);
        if (differs(&powers, power == bch->a_pow_tab[i])) {
            show_number("exponent", i);
            show_number("lib/bch.c", bch->a_pow_tab[i]);
            show_number("ours", power);
        }
        if (differs(&logarithms, logarithm == bch->a_log_tab[i])) {
            show_number("byte", i);
            show_number("lib/bch.c", bch->a_log_tab[i]);
            show_number("ours", logarithm);
        }
    }
    tell(&powers);
    tell(&logarithms);
}

/* Encoded frames against the kernel: each of the first k rows is the word that the kernel makes of the data given for
   it; every other row, and every column, is the word that it makes of its own first k bits. */

enum { RANDOM_FRAMES = 8 };

static struct comparison words = {"encoder", "words, 29 lengths, check bits against lib/bch.c", 0, 0};

/* The codeword of n bits with these data bits: the checks by the kernel, the last bit makes the number of ones even. */
static void kernel_word(struct bch_control *bch, size_t n, const uint8_t *data, uint8_t *word)
{
    size_t data_bytes = (n - BESIDE_DATA) / 8;
    memset(word, 0, bytes_of(n));
    memcpy(word, data, data_bytes);
    bch_encode(bch, word, (unsigned)data_bytes, word + data_bytes); /* the checks are zero before it */
    if (ones(word, n - 1) % 2 == 1)
        flip(word, n - 1);
}

static void compare_word(struct bch_control *bch, size_t n, const uint8_t *data, const uint8_t *word)
{
    uint8_t expected[LONGEST_BYTES];
    kernel_word(bch, n, data, expected);
    if (differs(&words, memcmp(word, expected, bytes_of(n)) == 0)) {
        show_word("lib/bch.c", n, expected);
        show_word("ours", n, word);
    }
}

static void compare_frame(struct bch_control *bch, size_t n, const uint8_t *data)
{
    static uint8_t frame[LONGEST * LONGEST_BYTES];
    uint8_t column[LONGEST_BYTES];
    size_t k = n - BESIDE_DATA;
    encode(n, data, frame);
    for (size_t i = 0; i < n; i++) {
        const uint8_t *row = frame + i * bytes_of(n);
        compare_word(bch, n, i < k ? data + i * (k / 8) : row, row);
        column_of(n, frame, i, column);
        compare_word(bch, n, column, column);
    }
}

static void compare_checks(struct bch_control *bch)
{
    static uint8_t data[8 * LONGEST_BYTES_OF_DATA * LONGEST_BYTES_OF_DATA];
    for (size_t bytes = SHORTEST_BYTES_OF_DATA; bytes <= LONGEST_BYTES_OF_DATA; bytes++) {
        size_t k = 8 * bytes, n = k + BESIDE_DATA;
        memset(data, 0x00, k * bytes);
        compare_frame(bch, n, data);
        for (size_t i = 0; i < k; i++) /* row i has a single one, at place i */
            flip(data + i * bytes, i);
        compare_frame(bch, n, data);
        memset(data, 0xFF, k * bytes);
        compare_frame(bch, n, data);
        for (int i = 0; i < RANDOM_FRAMES; i++) {
            random_bits(data, k * k);
            compare_frame(bch, n, data);
        }
    }
    tell(&words);
}

/* The word decoder against bch_decode: number, places, and the word that comes with them. The kernel's word is ours
   without bit n - 1, the parity bit. Where one or two of the first n - 1 bits are wrong, both must name just these.
   For any other received word the kernel's answer is carried over to n bits: with the bits changed that it names, an
   odd number of ones says that bit n - 1 is wrong too. If that makes three, or if the kernel finds no codeword, the
   answer is number 9: no other codeword is within two, since the kernel's differ in at least 5 places. Both decoders
   refuse a place that was cut away. */

enum { REFUSED = 9, OTHERS = 3000, RANDOM_WORDS = 1000 };

struct answer {
    uint32_t number, changed;
    size_t first, second; /* zero where there is none */
};

static struct comparison one = {"decoder", "words with one wrong bit, 29 lengths, place against lib/bch.c", 0, 0};
static struct comparison two = {"decoder", "words with two wrong bits, 29 lengths, places against lib/bch.c", 0, 0};
static struct comparison other = {"decoder", "words, to 6 wrong bits or random, 29 lengths, against lib/bch.c", 0, 0};

static bool same_answer(struct answer a, struct answer b)
{
    return a.number == b.number && a.changed == b.changed && a.first == b.first && a.second == b.second;
}

static void show_answer(const char *who, struct answer a)
{
    printf("    %-11s number %u, places changed %u: %zu, %zu\n", who, (unsigned)a.number, (unsigned)a.changed, a.first, a.second);
}

/* bch_decode numbers the bits of a byte from the lowest. */
static size_t place_of(unsigned location)
{
    return location - location % 8 + 7 - location % 8;
}

static struct answer answer_of(unsigned changed, size_t p, size_t q)
{
    if (changed < 2)
        return (struct answer){0, changed, changed == 1 ? p : 0, 0};
    return (struct answer){0, 2, p < q ? p : q, p < q ? q : p};
}

static struct answer kernel_answer(struct bch_control *bch, size_t n, const uint8_t *received)
{
    size_t data_bytes = (n - BESIDE_DATA) / 8, places[3] = {0, 0, 0};
    unsigned locations[2] = {0, 0};
    int found = bch_decode(bch, received, (unsigned)data_bytes, received + data_bytes, NULL, NULL, locations);
    if (found < 0)
        return (struct answer){REFUSED, 0, 0, 0};
    for (int i = 0; i < found; i++)
        places[i] = place_of(locations[i]);
    if ((ones(received, n) + (size_t)found) % 2 == 1)
        places[found++] = n - 1;
    if (found > 2)
        return (struct answer){REFUSED, 0, 0, 0};
    return answer_of((unsigned)found, places[0], places[1]);
}

/* Four bytes of a block, the low one first. */
static uint32_t value_of(const uint8_t *at)
{
    return (uint32_t)at[0] | (uint32_t)at[1] << 8 | (uint32_t)at[2] << 16 | (uint32_t)at[3] << 24;
}

static struct answer our_answer(size_t n, const uint8_t *received, uint8_t *word)
{
    uint8_t block[WORD_BLOCK_BYTES];
    memset(word, 0xA5, LONGEST_BYTES);
    memset(block, 0xA5, sizeof block);
    uint32_t number = probe_word(n, received, bytes_of(n), word, bytes_of(n), block, sizeof block);
    return (struct answer){number, value_of(block), value_of(block + 4), value_of(block + 8)};
}

/* Our answer, and the word that comes with it: the received one with the named places changed. */
static void compare_answer(struct comparison *kind, size_t n, const uint8_t *received, struct answer expected)
{
    uint8_t word[LONGEST_BYTES], mended[LONGEST_BYTES];
    size_t length = bytes_of(n);
    struct answer ours = our_answer(n, received, word);
    memcpy(mended, received, length);
    if (expected.changed > 0)
        flip(mended, expected.first);
    if (expected.changed > 1)
        flip(mended, expected.second);
    if (differs(kind, same_answer(ours, expected) && memcmp(word, mended, length) == 0)) {
        show_word("received", n, received);
        show_answer("lib/bch.c", expected);
        show_word("", n, mended);
        show_answer("ours", ours);
        show_word("", n, word);
    }
}

/* A codeword with these wrong bits, of the first n - 1: both decoders must name them. */
static void compare_wrong(struct bch_control *bch, size_t n, const uint8_t *codeword, struct answer wrong)
{
    struct comparison *kind = wrong.changed == 1 ? &one : &two;
    uint8_t received[LONGEST_BYTES];
    memcpy(received, codeword, bytes_of(n));
    flip(received, wrong.first);
    if (wrong.changed == 2)
        flip(received, wrong.second);
    struct answer kernel = kernel_answer(bch, n, received);
    if (same_answer(kernel, wrong))
        compare_answer(kind, n, received, kernel);
    else if (differs(kind, false)) {
        show_word("received", n, received);
        show_answer("wrong bits", wrong);
        show_answer("lib/bch.c", kernel);
    }
}

static void random_codeword(struct bch_control *bch, size_t n, uint8_t *codeword)
{
    uint8_t data[LONGEST_BYTES];
    random_bits(data, n - BESIDE_DATA);
    kernel_word(bch, n, data, codeword);
}

static void compare_every_pair(struct bch_control *bch, size_t n)
{
    uint8_t codeword[LONGEST_BYTES];
    for (size_t p = 0; p < n - 1; p++) {
        random_codeword(bch, n, codeword);
        compare_wrong(bch, n, codeword, answer_of(1, p, 0));
        for (size_t q = p + 1; q < n - 1; q++)
            compare_wrong(bch, n, codeword, answer_of(2, p, q));
    }
}

static void compare_others(struct bch_control *bch, size_t n)
{
    uint8_t received[LONGEST_BYTES];
    for (size_t i = 0; i < OTHERS; i++) {
        random_codeword(bch, n, received);
        for (size_t wrong = i % 6; wrong > 0; wrong--)
            flip(received, (size_t)random_below(n - 1));
        if (random_below(2) == 1)
            flip(received, n - 1);
        compare_answer(&other, n, received, kernel_answer(bch, n, received));
    }
    for (size_t i = 0; i < RANDOM_WORDS; i++) {
        random_bits(received, n);
        compare_answer(&other, n, received, kernel_answer(bch, n, received));
    }
}

static void compare_places(struct bch_control *bch)
{
    for (size_t bytes = SHORTEST_BYTES_OF_DATA; bytes <= LONGEST_BYTES_OF_DATA; bytes++) {
        compare_every_pair(bch, 8 * bytes + BESIDE_DATA);
        compare_others(bch, 8 * bytes + BESIDE_DATA);
    }
    tell(&one);
    tell(&two);
    tell(&other);
}

enum { FIELD_BITS = 8, WRONG_BITS = 2, POLYNOMIAL = 0x11D /* z^8+z^4+z^3+z^2+1 */ };

int main(void)
{
    struct bch_control *bch = bch_init(FIELD_BITS, WRONG_BITS, POLYNOMIAL, false);
    if (bch == NULL || bch->n != LONGEST - 1 || bch->ecc_bits != CHECKS) {
        printf("FAILED lib/bch.c takes other parameters\n");
        return 1;
    }
    compare_field(bch);
    compare_checks(bch);
    compare_places(bch);
    bch_free(bch);
    return sum_up();
}
