#include "outside.h"

#include <stdio.h>
#include <stdlib.h>
#include <string.h>

size_t bytes_of(size_t bits)
{
    return (bits + 7) / 8;
}

unsigned bit_at(const uint8_t *packed, size_t place)
{
    return (unsigned)packed[place / 8] >> (7 - place % 8) & 1u;
}

void flip(uint8_t *packed, size_t place)
{
    packed[place / 8] ^= (uint8_t)(0x80u >> place % 8);
}

size_t ones(const uint8_t *packed, size_t bits)
{
    size_t count = 0;
    for (size_t place = 0; place < bits; place++)
        count += bit_at(packed, place);
    return count;
}

unsigned number_at(const uint8_t *packed, size_t place, size_t bits)
{
    unsigned number = 0;
    for (size_t i = 0; i < bits; i++)
        number = number << 1 | bit_at(packed, place + i);
    return number;
}

/* xorshift64*: the same cases in every run. */
static uint64_t random64(void)
{
    static uint64_t state = 0x9E3779B97F4A7C15u;
    state ^= state >> 12;
    state ^= state << 25;
    state ^= state >> 27;
    return state * 0x2545F4914F6CDD1Du;
}

uint64_t random_below(uint64_t bound)
{
    return (random64() >> 32) % bound;
}

void random_bits(uint8_t *packed, size_t bits)
{
    memset(packed, 0, bytes_of(bits));
    for (size_t place = 0; place < bits; place++)
        if (random_below(2) == 1)
            flip(packed, place);
}

void encode(size_t n, const uint8_t *data, uint8_t *frame)
{
    size_t k = n - BESIDE_DATA, data_bytes = k * bytes_of(k), frame_bytes = n * bytes_of(n);
    memset(frame, 0xA5, frame_bytes);
    uint32_t number = gazenohyri_encode(n, data, data_bytes, frame, frame_bytes);
    if (number != 0) {
        printf("FAILED the encoder gives the number %u for good data, n = %zu\n", (unsigned)number, n);
        exit(1);
    }
}

void column_of(size_t n, const uint8_t *frame, size_t j, uint8_t *word)
{
    memset(word, 0, bytes_of(n));
    for (size_t i = 0; i < n; i++)
        if (bit_at(frame + i * bytes_of(n), j) == 1)
            flip(word, i);
}

enum { SHOWN = 3 };

static unsigned passed, failed;

bool differs(struct comparison *kind, bool same)
{
    kind->cases++;
    if (same)
        return false;
    kind->differences++;
    if (kind->differences > SHOWN)
        return false;
    printf("difference, %s, case %lu of %s:\n", kind->subject, kind->cases, kind->what);
    return true;
}

void show_word(const char *who, size_t n, const uint8_t *word)
{
    printf("    %-11s n = %zu ", who, n);
    for (size_t i = 0; i < bytes_of(n); i++)
        printf("%02X", word[i]);
    putchar('\n');
}

void show_number(const char *who, unsigned long number)
{
    printf("    %-11s %lu\n", who, number);
}

void tell(const struct comparison *kind)
{
    bool good = kind->cases > 0 && kind->differences == 0;
    good ? passed++ : failed++;
    printf("%s: %s: %lu %s", good ? "ok" : "FAILED", kind->subject, kind->cases, kind->what);
    if (kind->differences > 0)
        printf(": %lu differ", kind->differences);
    putchar('\n');
}

int sum_up(void)
{
    printf("%u passed, %u failed\n", passed, failed);
    return failed == 0 && passed > 0 ? 0 : 1;
}
