/* Random numbers for the comparisons: xorshift, the same on every run. */
#ifndef TIMERDAISY_RANDOM_H
#define TIMERDAISY_RANDOM_H

#include <stdint.h>

static uint64_t seed = 0x7E57;

static inline uint32_t random_below(uint32_t end)
{
    seed ^= seed << 13;
    seed ^= seed >> 7;
    seed ^= seed << 17;
    return (uint32_t)((seed >> 16) % end);
}

static inline uint32_t random_between(uint32_t low, uint32_t high)
{
    return low + random_below(high - low + 1);
}

#endif
