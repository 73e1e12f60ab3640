/* Prints how many bytes of stack each function takes at n = 256: it is called on a stack that is painted below the caller, from
 * SPARED bytes on. Less than that is not told apart. */
#define _DEFAULT_SOURCE /* MAP_ANONYMOUS */
#include "gazenohyri.h"

#include <pthread.h>
#include <stdio.h>
#include <stdlib.h>
#include <sys/mman.h>

enum { STACK = 1 << 18, PAINT = 0xC3, SPARED = 256, N = 256, MOST = 4096 }; /* MOST: what gazenohyri.h says */

static uint8_t data[GAZENOHYRI_GREATEST_DATA_BYTES], frame[GAZENOHYRI_GREATEST_FRAME_BYTES];
static uint8_t received[GAZENOHYRI_GREATEST_FRAME_BYTES];
static uint8_t block[GAZENOHYRI_BLOCK_BYTES];
static uint8_t *stack;
static uint32_t returned;

static void encode(void)
{
    returned = gazenohyri_encode(N, data, sizeof data, frame, sizeof frame);
}

static void decode(void)
{
    returned = gazenohyri_decode(N, GAZENOHYRI_GREATEST_ALLOWANCE, received, sizeof received, frame, sizeof frame, block,
                                 sizeof block);
}

static void read_data(void)
{
    returned = gazenohyri_read(N, frame, sizeof frame, data, sizeof data);
}

static void receive(void)
{
    uint64_t state = gazenohyri_receive(gazenohyri_fresh(N), received, sizeof received, frame, sizeof frame);
    returned = gazenohyri_state_number(state);
}

typedef struct {
    void (*call)(void);
    size_t touched;
} Measured;

/* Everything of the stack below this function's frame is free while it calls nothing. */
static void *measure(void *given)
{
    Measured *measured = (Measured *)given;
    uint8_t *here = (uint8_t *)__builtin_frame_address(0);
    volatile uint8_t *low = stack, *high = here - SPARED;
    for (volatile uint8_t *at = low; at < high; at++)
        *at = PAINT;
    measured->call();
    while (low < high && *low == PAINT)
        low++;
    measured->touched = (size_t)(here - low);
    return NULL;
}

static size_t stack_use(void (*call)(void), uint32_t number)
{
    Measured measured = {call, 0};
    pthread_attr_t attributes;
    pthread_t thread;
    if (pthread_attr_init(&attributes) || pthread_attr_setstack(&attributes, stack, STACK) ||
        pthread_create(&thread, &attributes, measure, &measured) || pthread_join(thread, NULL)) {
        puts("no thread on a stack of its own");
        exit(1);
    }
    if (returned != number) {
        puts("a call was refused, or not answered as it must be");
        exit(1);
    }
    return measured.touched;
}

int main(void)
{
    void *at = mmap(NULL, STACK, PROT_READ | PROT_WRITE, MAP_PRIVATE | MAP_ANONYMOUS, -1, 0);
    if (at == MAP_FAILED)
        return 1;
    stack = (uint8_t *)at;
    data[0] = 0x80;
    size_t encoding = stack_use(encode, 0), reading = stack_use(read_data, 0);
    for (size_t i = 0; i < sizeof frame; i++)
        received[i] = (uint8_t)(frame[i] ^ (i % 32 < 3 ? i % 251 : 0)); /* many words of none, one, two and more wrong bits */
    size_t receiving = stack_use(receive, 0), decoding = stack_use(decode, GAZENOHYRI_SPENT);
    if (gazenohyri_passes(block) != GAZENOHYRI_GREATEST_ALLOWANCE || gazenohyri_bits(block) == 0) {
        puts("decode had too little to do");
        return 1;
    }
    printf("encode %zu, decode %zu, read %zu, receive %zu bytes of stack at most\n", encoding, decoding, reading, receiving);
    return encoding < MOST && decoding < MOST && reading < MOST && receiving < MOST ? 0 : 1;
}
