/* Numbers by chance, the same in every run. */
#ifndef CHANCE_H
#define CHANCE_H

#include <stddef.h>
#include <stdint.h>

static uint64_t chance_state;

static inline uint64_t chance(void)
{
    uint64_t x = chance_state += 0x9E3779B97F4A7C15u;
    x = (x ^ x >> 30) * 0xBF58476D1CE4E5B9u;
    x = (x ^ x >> 27) * 0x94D049BB133111EBu;
    return x ^ x >> 31;
}

/* A number below a limit. */
static inline size_t below(size_t limit)
{
    return (size_t)(chance() % limit);
}

#endif
