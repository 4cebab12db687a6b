/* A small generator (splitmix64), so that every trial can be repeated from its seed on any machine. */
#ifndef HOST_DRAW_H
#define HOST_DRAW_H

#include <stdbool.h>
#include <stddef.h>
#include <stdint.h>

struct draw {
    uint64_t state;
};

static inline uint64_t draw_next(struct draw *d)
{
    d->state += 0x9e3779b97f4a7c15u;
    uint64_t z = d->state;
    z = (z ^ (z >> 30)) * 0xbf58476d1ce4e5b9u;
    z = (z ^ (z >> 27)) * 0x94d049bb133111ebu;
    return z ^ (z >> 31);
}

/* Below `end`, which is not 0. A bias of one in 2^32 does no harm here. */
static inline uint32_t draw_below(struct draw *d, uint32_t end)
{
    return (uint32_t)(((draw_next(d) >> 32) * end) >> 32);
}

/* From `low` to `high`, both included; the range is smaller than 2^32. */
static inline uint32_t draw_between(struct draw *d, uint32_t low, uint32_t high)
{
    return low + draw_below(d, high - low + 1);
}

static inline bool draw_one_in(struct draw *d, uint32_t chances)
{
    return draw_below(d, chances) == 0;
}

/* A generator for one of many parts, so that no part's draws depend on another's. */
static inline struct draw draw_part(uint64_t seed, uint64_t part, uint64_t number)
{
    struct draw d = { seed };
    d.state = draw_next(&d) ^ (part * 0xd6e8feb86659fd93u);
    d.state = draw_next(&d) ^ (number * 0xa0761d6478bd642fu);
    return d;
}

#endif
