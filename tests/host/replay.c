/* Calls encode, decode and read on the cases of standard input, which tests/compare writes with the answers that must come, on
 * buffers that show a stray access: the input is read-only, and so is an output that must stay as it is. Decode is called on each
 * of its cases with blocks of other lengths too, all three buffers being read-only, and with block and frame side by side. */
#include "boundaries.h"
#include "expect.h"
#include "gazenohyri.h"
#include "lent.h"

#include <stdio.h>
#include <string.h>

enum { FEW = 16 }; /* passes; a case that takes more is called in one way alone */
enum { BLOCK = GAZENOHYRI_BLOCK_BYTES };

/* As it is read. The length `after` is that of the output after the call, or 0 where that stays as it is. The values are those of
 * the block: the number, then zeros for encode and read. */
enum { ENCODE, DECODE, READ, FUNCTIONS };
static const char *const names[] = {"encode", "decode", "read"};
typedef struct {
    uint64_t function, n, allowance, input, output, after, values[BLOCK / 4];
} Case;

static Lent input, output, block;
static uint8_t given[MOST], expected[MOST], before[LONGEST_LENT];
static unsigned long null_inputs[FUNCTIONS], null_outputs[FUNCTIONS], null_blocks;

/* Byte by byte, apart from the header's functions. */
static void expected_block(const Case *c, uint8_t *bytes)
{
    for (size_t i = 0; i < BLOCK; i++)
        bytes[i] = (uint8_t)(c->values[i / 4] >> 8 * (i % 4));
}

static uint32_t number_of(const Case *c, uint8_t *out, uint8_t *values, size_t values_length)
{
    size_t n = (size_t)c->n, allowance = (size_t)c->allowance, length = (size_t)c->output;
    if (c->function == ENCODE)
        return gazenohyri_encode(n, input.bytes, input.length, out, length);
    if (c->function == READ)
        return gazenohyri_read(n, input.bytes, input.length, out, length);
    return gazenohyri_decode(n, allowance, input.bytes, input.length, out, length, values, values_length);
}

static void describe_case(const Case *c, size_t block_length, const char *where)
{
    const uint64_t *values = c->values;
    describe("%s(n = %zu, allowance = %zu, lengths %zu and %zu, block %zu), %s, a case of number %u, passes %u, bits %u, "
             "rows %u, columns %u", names[c->function], (size_t)c->n, (size_t)c->allowance, (size_t)c->input,
             (size_t)c->output, block_length, where, (unsigned)values[0], (unsigned)values[1], (unsigned)values[2],
             (unsigned)values[3], (unsigned)values[4]);
}

/* A block of another length than its own must be refused, whatever the case would give, and then nothing may be written. */
static void try_case(const Case *c, size_t block_length, Placement placement)
{
    uint8_t values[BLOCK];
    bool refused = c->function == DECODE && block_length != BLOCK;
    expected_block(c, values);
    lend(&input, given, (size_t)c->input, placement, true);
    lend(&output, before, (size_t)c->output, placement, refused || c->after == 0);
    lend(&block, before, block_length, placement, refused);
    null_inputs[c->function] += input.bytes == NULL;
    null_outputs[c->function] += output.bytes == NULL;
    null_blocks += refused && block.bytes == NULL;
    describe_case(c, block_length, places[placement]);
    uint32_t number = number_of(c, output.bytes, block.bytes, block_length);
    EXPECT(number == (refused ? (uint32_t)GAZENOHYRI_BAD_BLOCK_LENGTH : c->values[0]));
    take_back(&input, given);
    take_back(&output, refused || c->after == 0 ? before : expected);
    take_back(&block, refused ? before : values);
}

/* Block and frame in one buffer, the one's last byte next to the other's first: a write of either into the other shows. */
static void try_side_by_side(const Case *c, bool block_first)
{
    static uint8_t after[LONGEST_LENT];
    Placement placement = block_first ? ENDS_AT_GUARD_PAGE : BEGINS_AFTER_GUARD_PAGE;
    size_t length = (size_t)c->output, frame_at = block_first ? BLOCK : 0, block_at = block_first ? 0 : length;
    memcpy(after + frame_at, c->after > 0 ? expected : before, length);
    expected_block(c, after + block_at);
    lend(&input, given, (size_t)c->input, placement, true);
    lend(&output, before, length + BLOCK, placement, false);
    describe_case(c, BLOCK, block_first ? "the block right before the frame" : "the block right behind the frame");
    uint32_t number = number_of(c, output.bytes + frame_at, output.bytes + block_at, BLOCK);
    EXPECT(number == c->values[0]);
    take_back(&input, given);
    take_back(&output, after);
}

/* Passes take the time, and a later one touches no other bytes: of the ways to call, a case of many takes the next in turn. */
static void try_ways(const Case *c)
{
    static int turn;
    int ways = c->function == DECODE ? PLACEMENTS + 2 : PLACEMENTS;
    bool long_case = c->values[1] > FEW;
    turn += long_case;
    for (int way = 0; way < ways; way++) {
        if (long_case && way != turn % ways)
            continue;
        if (way < PLACEMENTS)
            try_case(c, c->function == DECODE ? BLOCK : 0, (Placement)way);
        else
            try_side_by_side(c, way == PLACEMENTS);
    }
}

static void try_other_blocks(const Case *c)
{
    static const size_t lengths[] = {0, BLOCK - 1, BLOCK + 1};
    for (int placement = 0; placement < PLACEMENTS; placement++)
        for (int i = 0; i < 3; i++)
            try_case(c, lengths[i], (Placement)placement);
}

static void get(void *bytes, uint64_t length)
{
    if (length > MOST || fread(bytes, 1, (size_t)length, stdin) != length)
        stop("the cases can't be read");
}

void replayed_cases(void)
{
    Case c;
    size_t got;
    memset(before, BEFORE, sizeof before);
    while ((got = fread(&c, 1, sizeof c, stdin)) == sizeof c) {
        if (c.function > FUNCTIONS || c.output > MOST)
            stop("the cases can't be read");
        if (c.function == FUNCTIONS) { /* a new group, and the length of its name */
            get(given, c.n);
            given[c.n] = '\0';
            begin_group((const char *)given);
            continue;
        }
        get(given, c.input);
        get(expected, c.after);
        try_ways(&c);
        if (c.function == DECODE)
            try_other_blocks(&c);
    }
    if (got != 0 || !feof(stdin))
        stop("the cases can't be read");
    begin_group("NULL with length 0: lent to encode, decode and read as input and as output, and to decode as block");
    EXPECT(null_blocks > 0);
    for (int function = 0; function < FUNCTIONS; function++)
        EXPECT(null_inputs[function] > 0 && null_outputs[function] > 0);
}
