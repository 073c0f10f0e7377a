#include "prng.h"

uint64_t prng_next(struct prng *r)
{
    uint64_t z = r->state += UINT64_C(0x9E3779B97F4A7C15);
    z = (z ^ z >> 30) * UINT64_C(0xBF58476D1CE4E5B9);
    z = (z ^ z >> 27) * UINT64_C(0x94D049BB133111EB);
    return z ^ z >> 31;
}

/* Each file has a stream of its own, so that one file can be made again without those before it. */
struct prng prng_of(uint64_t seed, uint64_t index)
{
    struct prng r = {seed};
    r.state = prng_next(&r) ^ index;
    r.state = prng_next(&r);
    return r;
}

uint32_t below(struct prng *r, uint32_t bound)
{
    return (uint32_t)((prng_next(r) >> 32) * bound >> 32);
}

uint32_t between(struct prng *r, uint32_t low, uint32_t high)
{
    return low + below(r, high - low + 1);
}

bool chance(struct prng *r, uint32_t in, uint32_t of)
{
    return below(r, of) < in;
}
