#ifndef SHIM_KERNEL_H
#define SHIM_KERNEL_H

#include <linux/types.h>
#include <string.h>

#define ARRAY_SIZE(array) (sizeof(array) / sizeof((array)[0]))
#define DIV_ROUND_UP(n, by) (((n) + (by) - 1) / (by))
#define swap(a, b) \
    do { \
        __typeof__(a) kept = (a); \
        (a) = (b); \
        (b) = kept; \
    } while (0)
#define WARN_ON(condition) (condition)

#endif
