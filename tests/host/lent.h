/* Buffers that show a stray access: a read or write in front of or behind one that lies at guard pages, or a write to one that is
 * read-only, ends the program with a line that names the call, or fails a check. It is the guard pages that show what the
 * archive's code does: it is not instrumented, so on the heap a sanitizer sees the callers' code alone. */
#ifndef LENT_H
#define LENT_H

#include "gazenohyri.h"

#include <stdbool.h>

enum { BEFORE = 0xA5 };  /* what output and block hold before a call */
enum { MOST = 1 << 14 }; /* bytes of any input or output: twice the longest frame */
enum { LONGEST_LENT = MOST + GAZENOHYRI_BLOCK_BYTES };

typedef enum { ENDS_AT_GUARD_PAGE, BEGINS_AFTER_GUARD_PAGE, ON_THE_HEAP, PLACEMENTS } Placement;
extern const char *const places[PLACEMENTS];

typedef struct {
    uint8_t *pages, *bytes;
    size_t length;
    Placement placement;
} Lent;

/* From here on a stray access ends the program in that way. */
void watch(void);

/* Its bytes are these; NULL where there are none, on the heap. */
void lend(Lent *buffer, const uint8_t *bytes, size_t length, Placement placement, bool read_only);

/* Makes one that is lent read-only, or lets it be written; not on the heap. */
void protect(const Lent *buffer, bool read_only);

/* Its bytes must be these, and nothing beside it may be written. */
void take_back(Lent *buffer, const uint8_t *bytes);

/* Zeros that can be read alone, more than there is memory for; they are not given back. */
uint8_t *endless_zeros(size_t length);

#endif
