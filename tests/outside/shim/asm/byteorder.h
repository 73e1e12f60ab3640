#ifndef SHIM_BYTEORDER_H
#define SHIM_BYTEORDER_H

#if __BYTE_ORDER__ == __ORDER_LITTLE_ENDIAN__
#define cpu_to_be32(x) __builtin_bswap32(x)
#else
#define cpu_to_be32(x) (x)
#endif

#endif
