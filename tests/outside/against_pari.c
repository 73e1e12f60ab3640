/* The library, and the numbers that the rules print, against the answers of pari.gp on standard input. */
#include "outside.h"

#include <stdio.h>
#include <stdlib.h>
#include <string.h>

enum { LINE = 1024, LISTED = 16 };

static struct comparison kinds[] = {
    {"the rules", "polynomial irreducible and of order 255 by PARI", 0, 0},
    {"the rules", "powers of a against PARI", 0, 0},
    {"the rules", "polynomials, minimal of a and of a^3 and g, against PARI", 0, 0},
    {"field", "powers of a against PARI", 0, 0},
    {"field", "logarithms against PARI", 0, 0},
    {"encoder", "lengths, checks of the last data bit against g by PARI", 0, 0},
    {"encoder", "frames of two words, 239 lengths, remainders modulo g against PARI", 0, 0},
};
enum { PRIMITIVE, LISTED_POWERS, POLYNOMIALS, POWERS, LOGARITHMS, LAST_BITS, PRODUCTS, KINDS };

/* As the rules print them: powers, and the exponents of polynomials. */
static const unsigned listed[LISTED] = {1, 2, 4, 8, 16, 32, 64, 128, 29, 58, 116, 232, 205, 135, 19, 38};
static const unsigned of_a[] = {8, 4, 3, 2, 0}, of_a3[] = {8, 6, 5, 4, 2, 1, 0};
static const unsigned of_g[] = {16, 14, 13, 11, 10, 9, 8, 6, 5, 1, 0};
#define POLYNOMIAL(exponents) polynomial(exponents, sizeof(exponents) / sizeof((exponents)[0]))

static unsigned polynomial(const unsigned *exponents, size_t terms)
{
    unsigned number = 0;
    for (size_t i = 0; i < terms; i++)
        number |= 1u << exponents[i];
    return number;
}

/* Ends the program: an answer has not the form that pari.gp gives it. */
static void not_understood(const char *answer)
{
    printf("FAILED the answer of PARI is not understood: %s\n", answer);
    exit(1);
}

enum { LONGEST_FRAME = LONGEST * LONGEST_BYTES };

/* g as PARI gives it, bit i for z^i: with data of a single one, at the end of a row, the word is z^16 and its checks are g
   without its leading term. At every length. */
static void compare_last_bits(struct comparison *kind, unsigned g)
{
    static uint8_t data[LONGEST_FRAME], frame[LONGEST_FRAME];
    for (size_t n = SHORTEST; n <= LONGEST; n++) {
        size_t k = n - BESIDE_DATA;
        memset(data, 0, sizeof data);
        flip(data, k - 1);
        encode(n, data, frame);
        unsigned ours = 1u << CHECKS | number_at(frame, k, CHECKS);
        if (differs(kind, g == ours)) {
            show_number("PARI", g);
            show_word("ours", n, frame);
        }
    }
}

static void read_word(size_t n, const char *bits, uint8_t *word)
{
    if (n < SHORTEST || n > LONGEST || strlen(bits) != n || strspn(bits, "01") != n)
        not_understood(bits);
    memset(word, 0, LONGEST_BYTES);
    for (size_t place = 0; place < n; place++)
        if (bits[place] == '1')
            flip(word, place);
}

/* Bit j of row i is bit i of `column` times bit j of `row`; as many rows as bits in a row. */
static void multiply(size_t bits, const uint8_t *column, const uint8_t *row, uint8_t *rows)
{
    memset(rows, 0, bits * bytes_of(bits));
    for (size_t i = 0; i < bits; i++)
        for (size_t j = 0; j < bits; j++)
            if (bit_at(column, i) == 1 && bit_at(row, j) == 1)
                flip(rows + i * bytes_of(bits), j);
}

/* Two words of n bits that PARI made: the frame of the product of their data must be the product of the words. */
static void compare_product(struct comparison *kind, size_t n, const char *column_bits, const char *row_bits)
{
    static uint8_t data[LONGEST_FRAME], frame[LONGEST_FRAME], expected[LONGEST_FRAME];
    uint8_t column[LONGEST_BYTES], row[LONGEST_BYTES];
    read_word(n, column_bits, column);
    read_word(n, row_bits, row);
    multiply(n - BESIDE_DATA, column, row, data);
    multiply(n, column, row, expected);
    encode(n, data, frame);
    size_t bytes = bytes_of(n), i = 0;
    while (i < n && memcmp(frame + i * bytes, expected + i * bytes, bytes) == 0)
        i++;
    if (differs(kind, i == n)) {
        show_word("column", n, column);
        show_word("row", n, row);
        show_number("in row", i);
        show_word("PARI", n, expected + i * bytes);
        show_word("ours", n, frame + i * bytes);
    }
}

static void compare_number(int kind, const char *line, unsigned pari, unsigned ours)
{
    if (differs(&kinds[kind], pari == ours)) {
        printf("    %-11s %s", "PARI", line);
        show_number(kinds[kind].subject, ours);
    }
}

/* False for the last line. */
static bool compare_line(const char *line)
{
    unsigned x, y;
    char column[LINE], row[LINE];
    if (sscanf(line, "primitive %u", &x) == 1)
        compare_number(PRIMITIVE, line, x, 1);
    else if (sscanf(line, "power %u %u", &x, &y) == 2) {
        compare_number(POWERS, line, y, probe_power(x));
        if (x < LISTED)
            compare_number(LISTED_POWERS, line, y, listed[x]);
    } else if (sscanf(line, "logarithm %u %u", &x, &y) == 2)
        compare_number(LOGARITHMS, line, y, probe_logarithm(x));
    else if (sscanf(line, "minimal %u %u", &x, &y) == 2)
        compare_number(POLYNOMIALS, line, y, x == 1 ? POLYNOMIAL(of_a) : POLYNOMIAL(of_a3));
    else if (sscanf(line, "g %u", &x) == 1) {
        compare_number(POLYNOMIALS, line, x, POLYNOMIAL(of_g));
        compare_last_bits(&kinds[LAST_BITS], x);
    } else if (sscanf(line, "words %u %1023s %1023s", &x, column, row) == 3)
        compare_product(&kinds[PRODUCTS], x, column, row);
    else if (strcmp(line, "end\n") == 0)
        return false;
    else
        not_understood(line);
    return true;
}

int main(void)
{
    char line[LINE];
    bool more = true;
    while (more) {
        if (fgets(line, sizeof line, stdin) == NULL)
            not_understood("it ends early");
        more = compare_line(line);
    }
    for (int kind = 0; kind < KINDS; kind++)
        tell(&kinds[kind]);
    return sum_up();
}
