/* Buffers that show a stray access. */
#define _DEFAULT_SOURCE /* MAP_ANONYMOUS */
#include "lent.h"
#include "expect.h"

#include <signal.h>
#include <stdlib.h>
#include <string.h>
#include <sys/mman.h>
#include <unistd.h>

enum { AROUND = 0x5C }; /* what the pages hold beside a buffer */

const char *const places[PLACEMENTS] = {"each buffer ends at a guard page", "each buffer begins after a guard page",
                                        "each buffer on the heap, NULL where it is empty"};
static size_t pages_length;
static uint8_t *around;

static void on_signal(int number)
{
    (void)number;
    stop("a stray access");
}

void watch(void)
{
    signal(SIGSEGV, on_signal);
    signal(SIGBUS, on_signal);
}

static uint8_t *map_pages(void)
{
    size_t page = (size_t)sysconf(_SC_PAGESIZE);
    pages_length = (LONGEST_LENT + page - 1) / page * page;
    void *at = mmap(NULL, pages_length + 2 * page, PROT_READ | PROT_WRITE, MAP_PRIVATE | MAP_ANONYMOUS, -1, 0);
    uint8_t *first = (uint8_t *)at + page;
    if (at == MAP_FAILED || mprotect(at, page, PROT_NONE) || mprotect(first + pages_length, page, PROT_NONE))
        stop("no guard pages");
    memset(first, AROUND, pages_length);
    return first;
}

/* A buffer has pages from its first use on. */
static void need_pages(Lent *buffer)
{
    if (around == NULL)
        around = map_pages();
    if (buffer->pages == NULL)
        buffer->pages = map_pages();
}

void protect(const Lent *buffer, bool read_only)
{
    if (buffer->placement == ON_THE_HEAP)
        return;
    if (mprotect(buffer->pages, pages_length, read_only ? PROT_READ : PROT_READ | PROT_WRITE))
        stop("pages can't be protected");
}

void lend(Lent *buffer, const uint8_t *bytes, size_t length, Placement placement, bool read_only)
{
    need_pages(buffer);
    buffer->length = length;
    buffer->placement = placement;
    if (placement == ON_THE_HEAP)
        buffer->bytes = length > 0 ? (uint8_t *)malloc(length) : NULL;
    else
        buffer->bytes = buffer->pages + (placement == ENDS_AT_GUARD_PAGE ? pages_length - length : 0);
    if (length > 0 && buffer->bytes == NULL)
        stop("no memory");
    if (length > 0)
        memcpy(buffer->bytes, bytes, length);
    if (read_only)
        protect(buffer, true);
}

void take_back(Lent *buffer, const uint8_t *bytes)
{
    EXPECT(buffer->length == 0 || memcmp(buffer->bytes, bytes, buffer->length) == 0);
    if (buffer->placement == ON_THE_HEAP) {
        free(buffer->bytes);
        return;
    }
    protect(buffer, false);
    if (buffer->length > 0)
        memset(buffer->bytes, AROUND, buffer->length);
    EXPECT(memcmp(buffer->pages, around, pages_length) == 0); /* nothing beside it was written */
}

uint8_t *endless_zeros(size_t length)
{
    void *at = mmap(NULL, length, PROT_READ, MAP_PRIVATE | MAP_ANONYMOUS | MAP_NORESERVE, -1, 0);
    if (at == MAP_FAILED)
        stop("no pages for a length past 32 bits");
    return (uint8_t *)at;
}
