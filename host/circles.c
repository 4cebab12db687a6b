/* Kinds with circular columns: each set of them, and numbers off the circle together with every other fault. */
#include "kinds.h"
#include "samples.h"

static struct sample sample;

/* ---- Sets of circles ---- */

/* The same rows under each set of their columns, and under sets with a bit beyond; in a build, in a header and on a card of either edition. */
void each_set_of_circles(struct trial *t, uint32_t limit)
{
    struct draw *d = &t->draw;
    do
        draw_sample(d, &sample, limit < 40 ? limit : 40);
    while (sample.c > 4);
    sample.circles = (1u << sample.c) - 1;
    for (uint32_t i = 0; i <= sample.n; i++)
        for (uint32_t j = 0; j < sample.c; j++)
            sample.table[(size_t)i * sample.c + j] = on_circle(&sample, j, sample.table[(size_t)i * sample.c + j]);
    for (uint32_t set = 0; set < 2u << sample.c; set++) {
        bool fair = set < 1u << sample.c;
        sample.circles = fair ? set : set & ((1u << sample.c) - 1);
        sample.edition = draw_one_in(d, 4) ? 1 : 2;
        draw_query(d, &sample);
        index_any(d, &sample);
        sample.index[7] = sample.circles = fair ? set : set << draw_below(d, 32 - sample.c);
        struct lot lot = fair_lot(d, &sample);
        lot.edition = 2;
        try_build(t, &lot);
        every_call(t, &lot);
    }
}

/* ---- Refusals ---- */

enum {
    FAULTS = 23
};

static uint16_t *row_of(struct sample *s, uint32_t i)
{
    return s->table + (size_t)i * s->c;
}

/* A word behind the header made wrong so that the shape stands: 10, 11 or 12. */
static void wrong_word(struct draw *d, struct sample *s)
{
    size_t node = 8 + 5 * (size_t)draw_below(d, s->index[5]), pairs = 8 + 5 * (size_t)s->index[5], p = 2 * (size_t)draw_below(d, s->n);
    switch (draw_below(d, 3)) {
    case 0: s->index[pairs + p] = s->index[pairs]; break;
    case 1: s->index[pairs + p + 1] ^= 1; break;
    default: s->index[node + 3] ^= 1; break;
    }
}

/* No room at all. */
static void take_rooms(struct lot *lot)
{
    size_t *rooms[] = { &lot->room, &lot->taken, &lot->work, &lot->how, &lot->rows, &lot->distances, &lot->answers, &lot->append_room,
                        &lot->append_work };
    for (size_t i = 0; i < sizeof rooms / sizeof *rooms; i++)
        *rooms[i] = 0;
}

/* Fault number k. Those of the index need rows, and are none where there is none. */
static void one_fault(struct draw *d, struct sample *s, struct lot *lot, uint32_t k)
{
    switch (k) {
    case 0: break;
    case 1: lot->c = draw_bad_columns(d, s->c); break;
    case 2: lot->m = 1; break;
    case 3: lot->circles |= 1u << s->c; break;
    case 4: lot->circles |= 0x80000000u; break;
    case 5: lot->table_length++; break;
    case 6: take_rooms(lot); break;
    case 7: lot->work = lot->append_work = 0; break;
    case 8: lot->query_length = s->c - 1; break;
    case 9: lot->w = 0; break;
    case 10: s->index[7] |= 1u << s->c; break;
    case 11: s->index[7] = (1u << s->c) - 1; break;
    case 12: lot->index_length--; break;
    case 13: s->index[0] = draw_one_in(d, 2) ? 1 : 3; break;
    case 14:
        if (s->n > 0)
            wrong_shape(d, s);
        break;
    case 15:
        if (s->n > 0)
            wrong_word(d, s);
        break;
    case 16: leave_circle(d, s, row_of(s, 0)); break;
    case 17: leave_circle(d, s, row_of(s, s->n == 0 ? 0 : s->n - 1)); break;
    case 18: leave_circle(d, s, row_of(s, draw_below(d, s->n + 1))); break;
    case 19: leave_circle(d, s, row_of(s, s->n)); break;
    case 20: lot->withdrawn_length += draw_one_in(d, 2) && lot->withdrawn_length > 0 ? -1 : 1; break;
    case 21: s->withdrawn[s->n / 32] |= 1u << draw_between(d, s->n % 32, 31); break;
    default: leave_circle(d, s, s->query); break;
    }
}

/* Each fault with each other, and alone. */
void circle_pairs(struct trial *t, uint32_t limit)
{
    static struct sample whole;
    struct draw *d = &t->draw;
    do
        draw_sample(d, &sample, limit < 12 ? limit : 12);
    while (sample.circles == 0);
    index_any(d, &sample);
    whole = sample;
    for (uint32_t a = 0; a < FAULTS; a++)
        for (uint32_t b = 0; b < a; b++) {
            struct lot lot = fair_lot(d, &sample);
            one_fault(d, &sample, &lot, a);
            one_fault(d, &sample, &lot, b);
            try_build(t, &lot);
            every_call(t, &lot);
            sample = whole;
        }
}
