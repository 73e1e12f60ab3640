/* Gives pieces of frames to receive, on buffers that show a stray access: the piece is read-only, and so is the frame's buffer
 * where no byte of it may change. What must come back is worked out here, by the rule. */
#include "boundaries.h"
#include "expect.h"
#include "gazenohyri.h"
#include "lent.h"

#include <string.h>

enum { N = 18, FRAME = 54 };              /* the shortest frame, for what is tried in every way */
enum { LONGEST = 8192, BITS_16 = 65536 }; /* the longest frame; 2^16 */

static Lent piece, frame;
static Placement placement;
static uint8_t held[MOST]; /* what the frame's buffer must hold */
static uint8_t sent[MOST]; /* bytes to make pieces of */
static unsigned long null_pieces, null_frames;

static uint64_t state_of(uint64_t n, uint64_t bytes_so_far)
{
    return (bytes_so_far * BITS_16 + n) * BITS_16;
}

static uint64_t length_of(uint64_t n)
{
    return n * ((n + 7) / 8);
}

/* The rule. */
static uint64_t next_state(uint64_t state, uint64_t piece_length, uint64_t frame_length)
{
    uint64_t n = state / BITS_16 % BITS_16, bytes = state / BITS_16 / BITS_16 + piece_length, low = state % BITS_16;
    if (n < 18 || n > 256)
        return state - low + 1;
    if (frame_length != length_of(n))
        return state - low + 2;
    if (bytes > length_of(n))
        return state - low + 14;
    return state_of(n, bytes) + (bytes < length_of(n) ? 256 : 0);
}

static void open_frame(size_t length)
{
    memset(held, BEFORE, sizeof held);
    lend(&frame, held, length, placement, false);
}

static void close_frame(void)
{
    take_back(&frame, held);
}

/* A call with so many bytes of the buffer that is open. Returns the state that came back. */
static uint64_t give_to(size_t frame_length, uint64_t state, const uint8_t *bytes, size_t length)
{
    uint64_t next = next_state(state, length, frame_length), so_far = state >> 32;
    bool taken = next % 256 == 0;
    lend(&piece, bytes, length, placement, true);
    protect(&frame, !taken || length == 0);
    null_pieces += taken && piece.bytes == NULL;
    null_frames += frame.bytes == NULL;
    describe("receive(n = %u, bytes so far %u, bits 0 to 15 %#x, lengths %zu and %zu), %s, a call of number %u",
             (unsigned)(state >> 16 & 0xFFFF), (unsigned)so_far, (unsigned)(state & 0xFFFF), length, frame_length,
             places[placement], (unsigned)(next % 256));
    uint64_t returned = gazenohyri_receive(state, piece.bytes, length, frame.bytes, frame_length);
    EXPECT(returned == next);
    if (taken)
        memcpy(held + so_far, bytes, length);
    EXPECT(frame.length == 0 || memcmp(frame.bytes, held, frame.length) == 0);
    take_back(&piece, bytes);
    return returned;
}

static uint64_t give(uint64_t state, const uint8_t *bytes, size_t length)
{
    return give_to(frame.length, state, bytes, length);
}

/* Every place with every length, and one byte too many; bits 0 to 15 may be anything. */
static void places_and_lengths(void)
{
    static const uint64_t low[] = {0, 0x0100, 0x000E, 0x0001, 0xFE02, 0xFFFF};
    for (size_t place = 0; place <= FRAME; place++)
        for (size_t length = 0; length <= FRAME - place + 1; length++) {
            open_frame(FRAME);
            give(state_of(N, place) + low[(place + length) % 6], sent, length);
            close_frame();
        }
}

/* Every cutting into two, with an empty piece in front, between and behind, and with two that are refused between. */
static void cut_in_two(void)
{
    for (size_t cut = 0; cut <= FRAME; cut++) {
        open_frame(FRAME);
        uint64_t state = give(gazenohyri_fresh(N), sent, 0);
        state = give(state, sent, cut);
        state = give(state, sent, 0);
        state = give(state, sent, FRAME - cut + 1);
        state = give_to(FRAME - 1, state, sent, 1);
        state = give(state, sent + cut, FRAME - cut);
        state = give(state, sent, 0);
        EXPECT(state == state_of(N, FRAME) && memcmp(held, sent, FRAME) == 0);
        close_frame();
    }
}

/* At every n: all but the last byte, two more, the last, one more. */
static void lengths_of_frames(void)
{
    for (size_t n = 18; n <= 256; n++) {
        size_t length = (size_t)length_of(n);
        open_frame(length);
        uint64_t state = give(gazenohyri_fresh(n), sent, length - 1);
        state = give(state, sent, 2);
        state = give(state, sent + length - 1, 1);
        EXPECT(state == state_of(n, length) && memcmp(held, sent, length) == 0);
        give(state, sent, 1);
        close_frame();
    }
}

/* What was there before a reset is no part of the frame after it. */
static void begun_anew(void)
{
    for (size_t cut = 0; cut <= FRAME; cut++) {
        open_frame(FRAME);
        uint64_t state = gazenohyri_reset(give(gazenohyri_fresh(N), sent, cut));
        EXPECT(state == gazenohyri_fresh(N));
        state = give(state, sent + FRAME, 1);
        state = give(state, sent + FRAME + 1, FRAME - 1);
        EXPECT(state == state_of(N, FRAME) && memcmp(held, sent + FRAME, FRAME) == 0);
        close_frame();
    }
}

/* States that nobody made, each with empty and long pieces, and with buffers of several lengths, among them the one that a frame
 * of that n would have. Of some n, bytes and sums the low bits alone would do. */
static void states_of_nobody(void)
{
    static const uint64_t ns[] = {0, 1, 17, N, 25, 256, 257, 256 + N, 512, 512 + N, 32768 + N, 65535};
    static const uint64_t bytes[] = {0, 1, FRAME - 1, FRAME, FRAME + 1, 256, LONGEST, LONGEST + 1, BITS_16, BITS_16 + 1,
                                     2147483648, 4294967296 - LONGEST, 4294967296 - FRAME, 4294967295};
    static const size_t pieces[] = {0, 1, FRAME, FRAME + 1, LONGEST, LONGEST + 1};
    for (size_t i = 0; i < sizeof ns / sizeof *ns; i++) {
        size_t own = length_of(ns[i]) < MOST ? (size_t)length_of(ns[i]) : 0;
        const size_t frames[] = {0, FRAME, LONGEST, own, own + 1, own > 0 ? own - 1 : 0};
        for (size_t j = 0; j < sizeof bytes / sizeof *bytes; j++)
            for (size_t k = 0; k < sizeof frames / sizeof *frames; k++) {
                open_frame(frames[k]);
                for (size_t l = 0; l < sizeof pieces / sizeof *pieces; l++)
                    give(state_of(ns[i], bytes[j]) + (j + k + l) % 2 * 0xFFFF, sent, pieces[l]);
                close_frame();
            }
    }
}

/* Lengths of which the low 32 bits alone would do. */
static void long_lengths(void)
{
    static uint8_t *zeros;
    size_t past = (size_t)1 << 32;
    if (zeros == NULL)
        zeros = endless_zeros(past + FRAME);
    for (size_t place = 0; place <= FRAME; place++) {
        size_t rest = FRAME - place;
        uint64_t state = state_of(N, place);
        describe("receive, with a piece or a frame of more than 2^32 bytes, at %zu", place);
        open_frame(FRAME);
        protect(&frame, true);
        EXPECT(gazenohyri_receive(state, zeros, past + rest, frame.bytes, FRAME) == state + 14);
        EXPECT(gazenohyri_receive(state, sent, rest, zeros, past + FRAME) == state + 2);
        close_frame();
    }
}

/* A frame of some data, as it was written, and with two rows lost: they read as all ones. */
static void make_frame(size_t n, uint8_t *written, uint8_t *lost)
{
    static uint8_t data[GAZENOHYRI_GREATEST_DATA_BYTES];
    size_t k = n - 17, bytes = (k + 7) / 8, row = (n + 7) / 8;
    for (size_t i = 0; i < k * bytes; i++)
        data[i] = (uint8_t)((i * 151 + 201) & (i % bytes == bytes - 1 ? 0xFF << (8 * bytes - k) : 0xFF));
    EXPECT(gazenohyri_encode(n, data, k * bytes, written, n * row) == GAZENOHYRI_OK);
    memcpy(lost, written, n * row);
    memset(lost + 2 * row, 0xFF, row);
    memset(lost + 11 * row, 0xFF, row);
}

static void expect_mended(size_t n, const uint8_t *received, const uint8_t *written, uint8_t *block)
{
    static uint8_t mended[LONGEST];
    size_t length = (size_t)length_of(n);
    memset(mended, BEFORE, sizeof mended);
    EXPECT(gazenohyri_decode(n, 2, received, length, mended, length, block, GAZENOHYRI_BLOCK_BYTES) == GAZENOHYRI_OK);
    EXPECT(memcmp(mended, written, length) == 0);
}

/* In pieces of one size, the last as long as is left; what decode gives then is what it gives for the frame as it was sent. */
static void whole_frame(size_t n, size_t size)
{
    static uint8_t written[LONGEST], lost[LONGEST];
    uint8_t block[GAZENOHYRI_BLOCK_BYTES], same[GAZENOHYRI_BLOCK_BYTES];
    size_t length = (size_t)length_of(n), left = length;
    uint64_t state = gazenohyri_fresh(n);
    make_frame(n, written, lost);
    open_frame(length);
    for (; left > 0; left -= left < size ? left : size)
        state = give(state, lost + length - left, left < size ? left : size);
    EXPECT(state == state_of(n, length) && memcmp(frame.bytes, lost, length) == 0);
    expect_mended(n, frame.bytes, written, block);
    expect_mended(n, lost, written, same);
    EXPECT(memcmp(block, same, sizeof block) == 0 && gazenohyri_passes(block) > 0);
    close_frame();
}

static void in_each_placement(const char *name, void (*part)(void))
{
    begin_group(name);
    for (int i = 0; i < PLACEMENTS; i++) {
        placement = (Placement)i;
        part();
    }
}

static void whole_frames(void)
{
    static const size_t sizes[] = {1, 7, 64, LONGEST};
    for (size_t i = 0; i < sizeof sizes / sizeof *sizes; i++) {
        whole_frame(N, sizes[i]);
        whole_frame(195, sizes[i]);
        whole_frame(256, sizes[i]);
    }
}

void received_pieces(void)
{
    for (size_t i = 0; i < sizeof sent; i++)
        sent[i] = (uint8_t)(i % 163 + 1); /* below BEFORE, and neighbours differ */
    in_each_placement("receive: every place and every length of a piece at n = 18", places_and_lengths);
    in_each_placement("receive: every cutting into two at n = 18, with empty pieces and refused ones", cut_in_two);
    in_each_placement("receive: the length of a frame, at every n", lengths_of_frames);
    in_each_placement("receive: a frame that is begun anew", begun_anew);
    in_each_placement("receive: states that nobody made, and buffers of other lengths", states_of_nobody);
    in_each_placement("receive: lengths past 32 bits", long_lengths);
    in_each_placement("receive: whole frames with two rows lost, in pieces, and then decoded", whole_frames);
    begin_group("NULL with length 0: lent to receive as a piece that is taken, and as a frame");
    EXPECT(null_pieces > 0 && null_frames > 0);
}
