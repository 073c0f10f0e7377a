/* Seeded random numbers. */
#ifndef RIG_PRNG_H
#define RIG_PRNG_H

#include "system.h"

/* splitmix64: small, and each seed gives an unrelated stream. */
struct prng {
    uint64_t state;
};

struct prng prng_of(uint64_t seed, uint64_t index);
uint64_t prng_next(struct prng *r);
uint32_t below(struct prng *r, uint32_t bound);              /* 0 to bound - 1 */
uint32_t between(struct prng *r, uint32_t low, uint32_t high); /* low to high */
bool chance(struct prng *r, uint32_t in, uint32_t of);

#endif
