/* What the yardstick's two files share: small steps that must be inlined to be fast. */
#ifndef HOST_PLAIN_INNER_H
#define HOST_PLAIN_INNER_H

#include "plain.h"

#include <stdlib.h>

enum {
    MOST_DEPTH = 24,
    MOST_CENTRES = 64,
    MOST_DISTANCE = 1048560,
    CIRCLE = 3600,
    BLOCK_COLUMNS = 8, /* added up before a look at the ceiling */
    SHORT_CHILD = 32, /* fewer members are measured from every centre */
    FEW_COLUMNS = 6,
    NODE_WORDS = 5 /* start, count, first child, radius, inner reach */
};

/* How far two numbers of one column are apart, in the form that each compiler makes its fastest code of, and whether it gains by knowing that there
   are sixteen columns: gcc then takes them one by one. */
#ifdef __clang__
enum {
    SIXTEEN = 16
};

static inline uint16_t over(uint16_t x, uint16_t y)
{
    return x > y ? (uint16_t)(x - y) : 0;
}

static inline uint32_t column(uint16_t x, uint16_t y)
{
    return (uint16_t)(over(x, y) | over(y, x));
}
#else
enum {
    SIXTEEN = -1
};

static inline uint32_t column(uint16_t x, uint16_t y)
{
    return (uint32_t)abs(x - y);
}
#endif

static inline uint32_t far_over(const uint16_t *a, const uint16_t *b, uint32_t c)
{
    uint32_t sum = 0;
    for (uint32_t j = 0; j < c; j++)
        sum += column(a[j], b[j]);
    return sum;
}

/* The distance of two rows without circles. A loop to a constant is compiled without a loop. */
static inline uint32_t far_plain(const uint16_t *a, const uint16_t *b, uint32_t c)
{
    if (c == 6)
        return far_over(a, b, 6);
    if (c == 4)
        return far_over(a, b, 4);
    if (c == BLOCK_COLUMNS)
        return far_over(a, b, BLOCK_COLUMNS);
    if ((int)c == SIXTEEN)
        return far_over(a, b, 16);
    return far_over(a, b, c);
}

/* How much shorter the other way round is in these columns, where it is. */
static inline uint32_t saved(const uint16_t *a, const uint16_t *b, uint32_t circles)
{
    uint32_t less = 0;
    for (; circles != 0; circles &= circles - 1) {
        int j = __builtin_ctz(circles);
        uint32_t twice = 2 * column(a[j], b[j]);
        less += twice > CIRCLE ? twice - CIRCLE : 0;
    }
    return less;
}

/* The distance of two rows of the table, or of one and a query. */
static inline uint32_t far(struct plain_table t, const uint16_t *a, const uint16_t *b)
{
    uint32_t sum = far_plain(a, b, t.c);
    return t.circles == 0 ? sum : sum - saved(a, b, t.circles);
}

/* The same where it is at most the ceiling; else something above it, and the columns behind the first block are not always added. */
static inline uint32_t far_to(struct plain_table t, const uint16_t *a, const uint16_t *b, uint32_t ceiling)
{
    if (t.c <= BLOCK_COLUMNS)
        return far(t, a, b);
    const uint32_t block = (1u << BLOCK_COLUMNS) - 1;
    uint32_t sum = far_over(a, b, BLOCK_COLUMNS) - saved(a, b, t.circles & block);
    if (sum > ceiling)
        return sum;
    return sum + far_plain(a + BLOCK_COLUMNS, b + BLOCK_COLUMNS, t.c - BLOCK_COLUMNS) - saved(a, b, t.circles & ~block);
}

static inline const uint16_t *row_of(struct plain_table t, uint32_t i)
{
    return t.columns + (size_t)i * t.c;
}

static inline uint32_t greater(uint32_t a, uint32_t b)
{
    return a > b ? a : b;
}

#endif
