/* Later kernels reverse a byte's bits by this. The bits are not swapped here, so it is never called. */
#ifndef SHIM_BITREV_H
#define SHIM_BITREV_H

#include <linux/types.h>

static inline u8 bitrev8(u8 byte)
{
    u8 reversed = 0;
    for (int i = 0; i < 8; i++)
        reversed = (u8)(reversed << 1 | (byte >> i & 1));
    return reversed;
}

#endif
