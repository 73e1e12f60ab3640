/* The constants, the types and the inline functions of gazenohyri.h. */
#include "boundaries.h"
#include "expect.h"
#include "gazenohyri.h"

#include <string.h>

static void constants(void)
{
    static const int numbers[] = {GAZENOHYRI_OK, GAZENOHYRI_BAD_N, GAZENOHYRI_BAD_INPUT_LENGTH, GAZENOHYRI_BAD_OUTPUT_LENGTH,
                                  GAZENOHYRI_BAD_ALLOWANCE, GAZENOHYRI_SPARE_BIT_SET, GAZENOHYRI_NOT_CODEWORDS,
                                  GAZENOHYRI_STUCK, GAZENOHYRI_SPENT};
    for (int i = 0; i < 9; i++)
        EXPECT(numbers[i] == i);
    EXPECT(GAZENOHYRI_ERASED == 10 && GAZENOHYRI_BAD_BLOCK_LENGTH == 11 && GAZENOHYRI_BLOCK_BYTES == 20);
    EXPECT(GAZENOHYRI_PAST_FRAME == 14);
    EXPECT(GAZENOHYRI_SMALLEST_N == 18 && GAZENOHYRI_GREATEST_N == 256 && GAZENOHYRI_CHECK_BITS == 17);
    EXPECT(GAZENOHYRI_SMALLEST_ALLOWANCE == 1 && GAZENOHYRI_GREATEST_ALLOWANCE == 200);
}

/* A function of another type would not compile. Each gets nothing but what it refuses. */
static void types(void)
{
    uint32_t (*const encode)(size_t, const uint8_t *, size_t, uint8_t *, size_t) = gazenohyri_encode;
    uint32_t (*const read)(size_t, const uint8_t *, size_t, uint8_t *, size_t) = gazenohyri_read;
    uint32_t (*const decode)(size_t, size_t, const uint8_t *, size_t, uint8_t *, size_t, uint8_t *, size_t) = gazenohyri_decode;
    uint64_t (*const receive)(uint64_t, const uint8_t *, size_t, uint8_t *, size_t) = gazenohyri_receive;
    uint8_t block[GAZENOHYRI_BLOCK_BYTES];
    describe("n = 0, and buffers that are empty");
    EXPECT(encode(0, NULL, 0, NULL, 0) == GAZENOHYRI_BAD_N);
    EXPECT(read(0, NULL, 0, NULL, 0) == GAZENOHYRI_BAD_N);
    EXPECT(decode(0, 0, NULL, 0, NULL, 0, block, sizeof block) == GAZENOHYRI_BAD_N);
    EXPECT(gazenohyri_number(block) == GAZENOHYRI_BAD_N);
    EXPECT(decode(0, 0, NULL, 0, NULL, 0, NULL, 0) == GAZENOHYRI_BAD_BLOCK_LENGTH);
    EXPECT(receive(0, NULL, 0, NULL, 0) == GAZENOHYRI_BAD_N);
}

static void sizes(void)
{
    static const size_t bad[] = {0, 1, 16, 17, 257, 258, 65554, SIZE_MAX / 2 + 1, SIZE_MAX};
    for (size_t i = 0; i < sizeof bad / sizeof *bad; i++) {
        describe("frame_bytes and data_bytes of %zu", bad[i]);
        EXPECT(gazenohyri_frame_bytes(bad[i]) == 0);
        EXPECT(gazenohyri_data_bytes(bad[i]) == 0);
    }
    describe("frame_bytes and data_bytes");
    static const size_t good[][3] = {{18, 54, 1}, {24, 72, 7}, {25, 100, 8}, {26, 104, 18}, {195, 195 * 25, 178 * 23}};
    for (size_t i = 0; i < sizeof good / sizeof *good; i++)
        EXPECT(gazenohyri_frame_bytes(good[i][0]) == good[i][1] && gazenohyri_data_bytes(good[i][0]) == good[i][2]);
    EXPECT(gazenohyri_frame_bytes(256) == GAZENOHYRI_GREATEST_FRAME_BYTES);
    EXPECT(gazenohyri_data_bytes(256) == GAZENOHYRI_GREATEST_DATA_BYTES);
    EXPECT(GAZENOHYRI_GREATEST_FRAME_BYTES == 256 * 32 && GAZENOHYRI_GREATEST_DATA_BYTES == 239 * 30);
}

static void expect_values(const uint8_t *block, const uint32_t *values)
{
    EXPECT(gazenohyri_number(block) == values[0]);
    EXPECT(gazenohyri_passes(block) == values[1]);
    EXPECT(gazenohyri_bits(block) == values[2]);
    EXPECT(gazenohyri_bad_rows(block) == values[3]);
    EXPECT(gazenohyri_bad_columns(block) == values[4]);
}

/* All bytes different, rising and falling from the greatest, at every alignment; then each byte alone, all ones. */
static void blocks(void)
{
    static const uint32_t rising[] = {0x04030201, 0x08070605, 0x0C0B0A09, 0x100F0E0D, 0x14131211};
    static const uint32_t falling[] = {0xFCFDFEFF, 0xF8F9FAFB, 0xF4F5F6F7, 0xF0F1F2F3, 0xECEDEEEF};
    uint8_t bytes[GAZENOHYRI_BLOCK_BYTES + 7];
    for (size_t shift = 0; shift < 8; shift++) {
        describe("a block with all bytes different, %zu bytes into a buffer", shift);
        for (int i = 0; i < GAZENOHYRI_BLOCK_BYTES; i++)
            bytes[shift + (size_t)i] = (uint8_t)(i + 1);
        expect_values(bytes + shift, rising);
        for (int i = 0; i < GAZENOHYRI_BLOCK_BYTES; i++)
            bytes[shift + (size_t)i] = (uint8_t)(0xFF - i);
        expect_values(bytes + shift, falling);
    }
    for (int i = 0; i < GAZENOHYRI_BLOCK_BYTES; i++) {
        uint32_t values[5] = {0, 0, 0, 0, 0};
        describe("a block of zeros but for byte %d", i);
        memset(bytes, 0, sizeof bytes);
        bytes[i] = 0xFF;
        values[i / 4] = (uint32_t)0xFF << 8 * (i % 4);
        expect_values(bytes, values);
    }
    static const uint8_t spent[] = {8, 0, 0, 0, 200, 0, 0, 0, 0, 0, 1, 0, 0, 1, 0, 0, 255, 0, 0, 0};
    static const uint32_t spent_values[] = {GAZENOHYRI_SPENT, GAZENOHYRI_GREATEST_ALLOWANCE, 65536, 256, 255};
    describe("spent, 200 passes, 65536 bits, 256 rows, 255 columns");
    expect_values(spent, spent_values);
}

/* An n past 65,535 becomes 0, also where its low bits are those of a good one. */
static void fresh_states(void)
{
    static const size_t held[] = {0, 1, 17, 18, 195, 256, 257, 32768, 65535};
    static const size_t past[] = {65536, 65536 + 18, 65536 + 256, ((size_t)1 << 32) + 18, SIZE_MAX - 65535 + 18, SIZE_MAX};
    uint64_t (*const fresh)(size_t) = gazenohyri_fresh;
    for (size_t i = 0; i < sizeof held / sizeof *held; i++) {
        describe("fresh(%zu)", held[i]);
        EXPECT(fresh(held[i]) == (uint64_t)held[i] * 65536);
    }
    for (size_t i = 0; i < sizeof past / sizeof *past; i++) {
        describe("fresh(%zu)", past[i]);
        EXPECT(fresh(past[i]) == 0);
    }
}

static void expect_parts(uint64_t state, uint32_t number, int more, size_t n, size_t bytes)
{
    uint32_t (*const number_of)(uint64_t) = gazenohyri_state_number;
    int (*const more_of)(uint64_t) = gazenohyri_state_more;
    size_t (*const n_of)(uint64_t) = gazenohyri_state_n;
    size_t (*const bytes_of)(uint64_t) = gazenohyri_state_bytes;
    uint64_t (*const reset)(uint64_t) = gazenohyri_reset;
    describe("a state of the bits %08x %08x", (unsigned)(state >> 32), (unsigned)(state & 0xFFFFFFFF));
    EXPECT(number_of(state) == number);
    EXPECT(more_of(state) == more);
    EXPECT(n_of(state) == n);
    EXPECT(bytes_of(state) == bytes);
    EXPECT(reset(state) == (uint64_t)n * 65536);
}

/* All parts different, with more wanted and not, and bits set that are none of them; a whole frame, a refusal; each bit alone. */
static void states(void)
{
    expect_parts(0xFEDCBA9876540123, 0x23, 1, 0x7654, 0xFEDCBA98);
    expect_parts(0x89ABCDEF0123FE45, 0x45, 0, 0x0123, 0x89ABCDEF);
    expect_parts(0x0000001200C3010E, 14, 1, 195, 18);
    expect_parts(0x0000200001000000, GAZENOHYRI_OK, 0, 256, 8192);
    expect_parts(0xFFFFFFFFFFFFFFFF, 0xFF, 1, 0xFFFF, 0xFFFFFFFF);
    for (unsigned i = 0; i < 64; i++) {
        uint64_t bit = (uint64_t)1 << i, n = i < 16 || i > 31 ? 0 : bit >> 16;
        expect_parts(bit, i < 8 ? (uint32_t)bit : 0, i == 8, (size_t)n, i < 32 ? 0 : (size_t)(bit >> 32));
    }
}

void header_values(void)
{
    begin_group("the header's constants, types and sizes, the readers of a block and of a state, fresh and reset");
    constants();
    types();
    sizes();
    blocks();
    fresh_states();
    states();
}
