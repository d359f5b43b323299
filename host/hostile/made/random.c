/*
 * Numbers for the hostile run: a fixed generator, so that a seed gives the same run everywhere. For that, no expression takes two of them where C
 * leaves open which is the first.
 */
#include <string.h>

#include "made.h"

static uint64_t state;
static uint8_t pool[1 << 17];

/* splitmix64 */
uint64_t random_u64(void)
{
    uint64_t z = state += 0x9e3779b97f4a7c15u;
    z = (z ^ z >> 30) * 0xbf58476d1ce4e5b9u;
    z = (z ^ z >> 27) * 0x94d049bb133111ebu;
    return z ^ z >> 31;
}

uint64_t below(uint64_t bound)
{
    return random_u64() % bound;
}

void random_seed(uint64_t seed)
{
    size_t i;
    state = seed;
    for (i = 0; i < sizeof pool; i++) {
        pool[i] = (uint8_t)random_u64();
    }
}

/* A part of a fixed pool from a random place: a call's room is long, and making each byte anew would cost more than the call. */
void random_bytes(uint8_t *to, size_t n)
{
    memcpy(to, pool + below(sizeof pool - n), n);
}

/* A number of the kinds that break things: near 0, near a power of two, near a bound of document 01, of any width, or any at all. */
uint64_t hostile_number(void)
{
    static const uint64_t bounds[] = {5,        7,        0x1f,      28,        64,         1000000,    2300000,    2500000,
                                      3570000,  16000000, 27656250,  28800000,  57600000,   85000000,   112000000,  885000000,
                                      1023999999, 1770000000, 1800000000, 3600000000u, 4294967295u, 6000000, 7000000, 250000000,
                                      225000,   300000,   900000};
    uint64_t near = below(5) - 2, shift = below(64);
    switch (below(6)) {
    case 0:
        return below(4);
    case 1:
        return ((uint64_t)1 << shift) + near;
    case 2:
        return bounds[below(sizeof bounds / sizeof *bounds)] + near;
    case 3:
        return below(1900000000);
    case 4:
        return random_u64() >> shift;
    default:
        return near;
    }
}
