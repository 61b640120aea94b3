/* Numbers read from and written to any place. */
#ifndef LOADS_H
#define LOADS_H

#include <stdint.h>
#include <string.h>

static inline uint64_t load64(const void *from)
{
    uint64_t x;
    memcpy(&x, from, 8);
    return x;
}

static inline uint32_t load32(const void *from)
{
    uint32_t x;
    memcpy(&x, from, 4);
    return x;
}

static inline uint16_t load16(const void *from)
{
    uint16_t x;
    memcpy(&x, from, 2);
    return x;
}

static inline void store64(void *to, uint64_t x)
{
    memcpy(to, &x, 8);
}

static inline void store32(void *to, uint32_t x)
{
    memcpy(to, &x, 4);
}

static inline void store16(void *to, uint16_t x)
{
    memcpy(to, &x, 2);
}

#endif
