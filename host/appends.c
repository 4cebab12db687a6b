/* Kinds of append: to indexes of every kind, in chains, a night's rows at once, and with each two of many faults. */
#include <string.h>

#include "bourascul.h"
#include "kinds.h"
#include "samples.h"

static struct sample sample;

/* Words behind the index's own, which may be lent too. */
static void lend_more(struct draw *d, struct lot *lot)
{
    for (uint32_t more = draw_one_in(d, 3) ? draw_between(d, 1, 5) : 0; more > 0; more--)
        sample.index[lot->index_length++] = (uint32_t)draw_next(d);
}

/* The row behind the table goes into the index by the library's call, and the sample has one row more. What was accepted must be
   accepted again. False where the append is refused. */
static bool take_row(struct trial *t)
{
    static uint32_t words[SAMPLE_WORDS], work[6 * SAMPLE_ROWS];
    struct lot lot = fair_lot(&t->draw, &sample);
    bool fits = naive_verdict(&lot) == 0;
    lend_more(&t->draw, &lot);
    try_append(t, &lot);
    bourascul_built is = bourascul_append(lot.table, lot.table_length + lot.next, lot.c, lot.index, lot.index_length, words, SAMPLE_WORDS, work,
                                          6 * SAMPLE_ROWS);
    if (is.number != 0 || is.words > SAMPLE_WORDS)
        return false;
    memcpy(sample.index, words, is.words * sizeof *words);
    sample.index_length = is.words;
    sample.n++;
    lot = fair_lot(&t->draw, &sample);
    try_check(t, &lot);
    if (fits && naive_verdict(&lot) != 0)
        tell_difference(t, &lot, "append", "an index that was accepted is refused with the new row");
    return true;
}

/* Several rows, each new to the same index; then the last goes into it, and all calls on what comes out. */
static void append_several(struct trial *t)
{
    for (uint32_t i = 0; i < 4; i++) {
        draw_next_row(&t->draw, &sample);
        struct lot lot = fair_lot(&t->draw, &sample);
        lend_more(&t->draw, &lot);
        try_append(t, &lot);
    }
    if (!take_row(t))
        return;
    draw_next_row(&t->draw, &sample);
    draw_query(&t->draw, &sample);
    struct lot lot = fair_lot(&t->draw, &sample);
    every_call(t, &lot);
}

void append_any(struct trial *t, uint32_t limit)
{
    draw_sample(&t->draw, &sample, limit);
    index_any(&t->draw, &sample);
    append_several(t);
}

/* In a small index a row stands in place of another, mostly in the same leaf. There are rows behind it. */
static void draw_twice(struct draw *d, uint32_t most, uint32_t rows)
{
    uint32_t n = draw_between(d, 1, most < 9 ? most : 9);
    draw_sample_of(d, &sample, n + rows);
    sample.n = n;
    sample.m = draw_between(d, 2, 3);
    sample.l = sample.m + draw_below(d, 2);
    index_foreign(d, &sample);
    uint32_t *pair = sample.index + 8 + 5 * (size_t)sample.index[5];
    for (uint32_t times = draw_between(d, 1, 2); times > 0; times--) {
        uint32_t p = draw_below(d, sample.n), q = p + 1 < sample.n && !draw_one_in(d, 3) ? p + 1 : draw_below(d, sample.n);
        pair[2 * (size_t)q] = pair[2 * (size_t)p];
    }
}

void append_twice(struct trial *t, uint32_t limit)
{
    draw_twice(&t->draw, limit, 0);
    append_several(t);
}

/* ---- Chains ---- */

/* So many rows behind the sample's go into its index one by one; then all calls. */
static void chain(struct trial *t, uint32_t rows)
{
    while (rows > 0 && take_row(t))
        rows--;
    draw_query(&t->draw, &sample);
    struct lot lot = fair_lot(&t->draw, &sample);
    every_call(t, &lot);
}

void append_chain(struct trial *t, uint32_t limit)
{
    (void)limit;
    draw_sample_of(&t->draw, &sample, 200);
    sample.n = 0;
    index_built(&sample);
    chain(t, 200);
}

void append_chain_on(struct trial *t, uint32_t limit)
{
    uint32_t begin = draw_below(&t->draw, (limit < 500 ? limit : 500) + 1);
    draw_sample_of(&t->draw, &sample, begin + 50);
    sample.n = begin;
    index_any(&t->draw, &sample);
    chain(t, 50);
}

/* Twenty-four levels take m - 1 rows each; behind them leaves of depth 24 only grow. The last row is drawn anew. */
void append_equal(struct trial *t, uint32_t limit)
{
    uint32_t begin = draw_below(&t->draw, limit < 60 ? limit : 60);
    draw_equal_rows(&t->draw, &sample, begin + 90);
    sample.n = begin;
    if (draw_one_in(&t->draw, 2))
        index_foreign(&t->draw, &sample);
    else
        index_built(&sample);
    chain(t, 90);
    append_several(t);
}

/* ---- A night's rows at once ---- */

/* So many rows behind the sample's: as they were drawn, each by itself, or all close to one row, so that few leaves take them all. */
static void draw_night(struct draw *d, uint32_t rows)
{
    uint32_t n = sample.n, how = draw_below(d, 3), near = draw_below(d, n + 1), shift = draw_between(d, 1, 6);
    for (; how > 0 && sample.n < n + rows; sample.n++) {
        uint16_t *row = sample.table + (size_t)sample.n * sample.c;
        if (how == 1)
            draw_next_row(d, &sample);
        for (uint32_t j = 0; how == 2 && j < sample.c; j++)
            row[j] = on_circle(&sample, j, sample.table[(size_t)near * sample.c + j] + draw_below(d, shift));
    }
    sample.n = n;
}

/* What is lent where so many rows behind the sample's are to go into its index. */
static struct lot night_lot(struct draw *d, uint32_t rows)
{
    struct lot lot = fair_lot(d, &sample);
    size_t n = (size_t)sample.n + rows;
    lot.next = (size_t)rows * sample.c;
    lot.append_room = longer(d, build_words(n));
    lot.append_work = longer(d, 6 * n);
    return lot;
}

/* Whether these are the words that the library's append leaves, called for one row after the other. */
static bool same_in_turn(const struct lot *lot, uint32_t rows, const uint32_t *words, uint32_t count)
{
    static uint32_t index[2][SAMPLE_WORDS], work[6 * SAMPLE_ROWS];
    bourascul_built is = { 0, (uint32_t)lot->index_length, 0 };
    memcpy(index[0], lot->index, lot->index_length * sizeof *words);
    for (uint32_t i = 1; i <= rows && is.number == 0; i++)
        is = bourascul_append(lot->table, lot->table_length + (size_t)i * lot->c, lot->c, index[(i + 1) % 2], is.words, index[i % 2], SAMPLE_WORDS,
                              work, 6 * SAMPLE_ROWS);
    return is.number == 0 && is.words == count && memcmp(index[rows % 2], words, count * sizeof *words) == 0;
}

/* So many rows behind the table go into the index by one call of the library's, and the sample has so many rows more. What was accepted
   must be accepted again, and be what one append after the other leaves. False where the call is refused. */
static bool take_night(struct trial *t, uint32_t rows)
{
    static uint32_t words[SAMPLE_WORDS], work[6 * SAMPLE_ROWS];
    struct lot lot = night_lot(&t->draw, rows);
    bool fits = naive_verdict(&lot) == 0;
    lend_more(&t->draw, &lot);
    try_append_rows(t, &lot);
    bourascul_built is = bourascul_append_rows(lot.table, lot.table_length + lot.next, lot.c, lot.index, lot.index_length, words, SAMPLE_WORDS, work,
                                               6 * SAMPLE_ROWS);
    if (is.number != 0 || is.words > SAMPLE_WORDS)
        return false;
    if (fits && !same_in_turn(&lot, rows, words, is.words))
        tell_difference(t, &lot, "append_rows", "one append after the other leaves another index");
    memcpy(sample.index, words, is.words * sizeof *words);
    sample.index_length = is.words;
    sample.n += rows;
    lot = fair_lot(&t->draw, &sample);
    try_check(t, &lot);
    if (fits && naive_verdict(&lot) != 0)
        tell_difference(t, &lot, "append_rows", "an index that was accepted is refused with the new rows");
    return true;
}

/* So many rows at once, then all calls on what comes out. False where the call is refused. */
static bool night(struct trial *t, uint32_t rows)
{
    if (!take_night(t, rows))
        return false;
    draw_query(&t->draw, &sample);
    struct lot lot = fair_lot(&t->draw, &sample);
    every_call(t, &lot);
    return true;
}

/* How many rows: one, few, or many. */
static uint32_t draw_rows(struct draw *d, uint32_t most)
{
    return draw_between(d, 1, draw_one_in(d, 4) ? 3 : draw_one_in(d, 4) ? most : most < 40 ? most : 40);
}

void night_any(struct trial *t, uint32_t limit)
{
    struct draw *d = &t->draw;
    uint32_t begin = draw_below(d, (limit < 300 ? limit : 300) + 1), rows = draw_rows(d, 300);
    draw_sample_of(d, &sample, begin + rows);
    sample.n = begin;
    draw_night(d, rows);
    index_any(d, &sample);
    night(t, rows);
}

void night_twice(struct trial *t, uint32_t limit)
{
    uint32_t rows = draw_rows(&t->draw, 12);
    draw_twice(&t->draw, limit, rows);
    draw_night(&t->draw, rows);
    night(t, rows);
}

/* Night after night, from an index without rows on. */
void nights_from_none(struct trial *t, uint32_t limit)
{
    struct draw *d = &t->draw;
    uint32_t all = draw_between(d, 1, limit < 300 ? limit : 300);
    draw_sample_of(d, &sample, all);
    sample.n = 0;
    index_built(&sample);
    for (bool taken = true; taken && sample.n < all;) {
        uint32_t left = all - sample.n, rows = draw_rows(d, left);
        taken = night(t, rows < left ? rows : left);
    }
}

/* Equal rows down to depth 24, where leaves only grow; the last row may be another. */
void night_equal(struct trial *t, uint32_t limit)
{
    struct draw *d = &t->draw;
    uint32_t begin = draw_below(d, limit < 60 ? limit : 60), rows = draw_between(d, 1, 120);
    draw_equal_rows(d, &sample, begin + rows);
    sample.n = begin + rows - 1;
    draw_next_row(d, &sample);
    sample.n = begin;
    if (draw_one_in(d, 2))
        index_foreign(d, &sample);
    else
        index_built(&sample);
    night(t, rows);
}

/* ---- Refusals ---- */

enum {
    FAULTS = 23
};

/* Another value for a word of the header. */
static void change_word(struct sample *s, const struct lot *lot, size_t at, uint32_t value)
{
    if (lot->index_length > at)
        s->index[at] = value;
}

/* Fault number k, so many rows being new. Some of them are none where c is 1 or there are no rows. */
static void one_fault(struct draw *d, struct sample *s, struct lot *lot, uint32_t rows, uint32_t k)
{
    size_t n = (size_t)s->n + rows;
    switch (k) {
    case 0: break;
    case 1: lot->c = draw_bad_columns(d, s->c); break;
    case 2: lot->next = (size_t)rows * s->c - 1; break;
    case 3: lot->append_room = build_words(n) - 1; break;
    case 4: lot->append_room = build_words(s->n); break;
    case 5: lot->append_work = 6 * n - 1; break;
    case 6: lot->append_work = 6 * (size_t)s->n; break;
    case 7: lot->table_length = lot->next = 0; break;
    case 8: lot->next = 0; break;
    case 9:
        lot->table_length -= s->n > 0 ? s->c : 0;
        lot->next = 0;
        break;
    case 10: change_word(s, lot, 0, draw_one_in(d, 2) ? 1 : 3); break;
    case 11: change_word(s, lot, 1, draw_one_in(d, 2) ? s->n + 1 : s->n - 1); break;
    case 12: change_word(s, lot, 2, draw_one_in(d, 2) ? s->c + 1 : s->c - 1); break;
    case 13: change_word(s, lot, 3, draw_one_in(d, 2) ? 1 : 65); break;
    case 14: change_word(s, lot, 4, draw_one_in(d, 2) ? s->m - 1 : 1025); break;
    case 15: change_word(s, lot, 5, draw_one_in(d, 2) ? 2 * s->n : 0); break;
    case 16: change_word(s, lot, 6, 2); break;
    case 17: lot->index_length = draw_one_in(d, 2) ? s->index_length - 1 : draw_below(d, 8); break;
    case 18:
        if (s->n > 0)
            wrong_shape(d, s);
        break;
    case 19: change_word(s, lot, 7, draw_one_in(d, 2) ? 1u << s->c : 1u << draw_below(d, 32)); break;
    case 20: leave_circle(d, s, s->table + s->c * (n - 1)); break;
    case 21: leave_circle(d, s, s->table + s->c * (size_t)draw_below(d, (uint32_t)n)); break;
    /* The first new row's own number stands in the index already. */
    default:
        if (s->n > 0)
            s->index[s->index_length - 2 - 2 * (size_t)draw_below(d, s->n)] = s->n;
        break;
    }
}

/* Each fault with each other, and alone, so many rows being new. */
static void each_pair(struct trial *t, uint32_t rows, void (*try)(struct trial *t, const struct lot *lot))
{
    static struct sample whole;
    whole = sample;
    for (uint32_t a = 0; a < FAULTS; a++)
        for (uint32_t b = 0; b < a; b++) {
            struct lot lot = rows == 1 ? fair_lot(&t->draw, &sample) : night_lot(&t->draw, rows);
            one_fault(&t->draw, &sample, &lot, rows, a);
            one_fault(&t->draw, &sample, &lot, rows, b);
            try(t, &lot);
            sample = whole;
        }
}

void append_pairs(struct trial *t, uint32_t limit)
{
    draw_sample(&t->draw, &sample, limit < 20 ? limit : 20);
    index_any(&t->draw, &sample);
    each_pair(t, 1, try_append);
}

void night_pairs(struct trial *t, uint32_t limit)
{
    struct draw *d = &t->draw;
    uint32_t begin = draw_below(d, (limit < 20 ? limit : 20) + 1), rows = draw_between(d, 1, 6);
    draw_sample_of(d, &sample, begin + rows);
    sample.n = begin;
    index_any(d, &sample);
    each_pair(t, rows, try_append_rows);
}
