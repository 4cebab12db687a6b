/* Searches over nine columns and more, where a leaf's row may be given up after some of them. */
#include "kinds.h"
#include "samples.h"

static struct sample sample;

/* What the first eight columns hold: little, so that the later ones decide, or much, so that most rows are too far after them. */
static void draw_columns(struct draw *d, struct sample *s)
{
    uint32_t early = draw_one_in(d, 2) ? 1 : draw_one_in(d, 4) ? 65536 : draw_between(d, 2, 4), late = draw_one_in(d, 3) ? 1 : draw_between(d, 2, 3);
    for (uint32_t i = 0; i <= s->n; i++)
        for (uint32_t j = 0; j < s->c; j++)
            s->table[(size_t)i * s->c + j] = on_circle(s, j, draw_one_in(d, 3) ? 0 : draw_below(d, j < 8 ? early : late));
}

/* Sixteen plain columns, each row at one end: two rows are equal, or as far apart as any can be. */
static void draw_farthest(struct draw *d, struct sample *s)
{
    s->c = 16;
    s->circles = 0;
    for (uint32_t i = 0; i <= s->n; i++) {
        uint16_t end = draw_one_in(d, 2) ? 65535 : 0;
        for (uint32_t j = 0; j < s->c; j++)
            s->table[(size_t)i * s->c + j] = end;
    }
}

/* The lot's r is a row's distance, or little; w is 1 or few. Leaves are large, and so are ties. */
void ceilings(struct trial *t, uint32_t limit)
{
    struct draw *d = &t->draw;
    do
        draw_sample(d, &sample, limit);
    while (sample.c < 9);
    if (draw_one_in(d, 2))
        sample.l = draw_between(d, sample.m, sample.m + 40);
    if (draw_one_in(d, 6))
        draw_farthest(d, &sample);
    else
        draw_columns(d, &sample);
    index_any(d, &sample);
    for (uint32_t i = 0; i < 6; i++) {
        draw_query(d, &sample);
        struct lot lot = fair_lot(d, &sample);
        if (!draw_one_in(d, 3)) {
            lot.w = draw_one_in(d, 2) ? 1 : draw_between(d, 1, 4);
            lot.rows = lot.distances = lot.answers = lot.w;
        }
        if (draw_one_in(d, 3))
            lot.r = draw_below(d, 4);
        try_searches(t, &lot);
    }
}
