#ifndef SHIM_BITOPS_H
#define SHIM_BITOPS_H

/* The place of the highest one, counted from 1; 0 for 0. */
static inline int fls(unsigned int x)
{
    return x == 0 ? 0 : 32 - __builtin_clz(x);
}

#endif
