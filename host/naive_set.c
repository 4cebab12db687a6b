/* 02's sets of withdrawn rows: which rows are in one, when one is no set of n rows, and orders to strike and to restore. */
#include "naive_inner.h"

#include <stdlib.h>

bool naive_is_in(struct naive_set set, uint32_t row)
{
    return (set.words[row / 32] >> row % 32 & 1) != 0;
}

bool naive_set_bad(struct naive_set set, size_t n)
{
    if (set.length != n / 32 + (n % 32 != 0))
        return true;
    for (size_t row = n; row < 32 * set.length; row++)
        if (naive_is_in(set, (uint32_t)row))
            return true;
    return false;
}

/* Every row's truth is taken from the set, one is changed, and the words are made of all of them again. */
static void rewrite(struct naive_room set, uint32_t row, bool withdrawn)
{
    const struct naive_set before = { set.words, set.length };
    bool *truth = naive_fresh(32 * set.length, sizeof *truth);
    for (uint32_t i = 0; i < 32 * set.length; i++)
        truth[i] = i == row ? withdrawn : naive_is_in(before, i);
    for (size_t k = 0; k < set.length; k++) {
        uint32_t word = 0;
        for (uint32_t bit = 32; bit-- > 0;)
            word = 2 * word + truth[32 * k + bit];
        set.words[k] = word;
    }
    free(truth);
}

static uint32_t obey(struct naive_room set, uint32_t n, uint32_t row, bool withdrawn)
{
    struct faults f = { { false } };
    f.met[20] = naive_set_bad((struct naive_set){ set.words, set.length }, n);
    f.met[26] = row >= n;
    if (naive_lowest(&f) == 0)
        rewrite(set, row, withdrawn);
    return naive_lowest(&f);
}

uint32_t naive_strike(struct naive_room withdrawn, uint32_t n, uint32_t row)
{
    return obey(withdrawn, n, row, true);
}

uint32_t naive_restore(struct naive_room withdrawn, uint32_t n, uint32_t row)
{
    return obey(withdrawn, n, row, false);
}
