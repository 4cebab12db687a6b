/* Asking for more: 02's laws on two searches of one accepted index with one query, asked of the library's outcomes alone. */
#include <string.h>

#include "bourascul.h"
#include "kinds.h"
#include "samples.h"

enum {
    MOST = SAMPLE_ROWS + 64 /* a fair room is little longer than what is asked for */
};

static struct sample sample;

/* A nearest search's outcome, of either call; only that with records has these. */
struct closest {
    bool with_records;
    bourascul_closest says;
    uint32_t rows[MOST], distances[MOST];
    uint8_t how[MOST];
    bourascul_answer answers[MOST];
};

struct within {
    bourascul_within says;
    uint8_t how[MOST];
};

static void ask_nearest(struct trial *t, const struct lot *lot, struct closest *o)
{
    static uint32_t work[6 * MOST];
    t->calls++;
    o->with_records = draw_one_in(&t->draw, 2);
    if (o->with_records)
        o->says = bourascul_nearest_answers(lot->table, lot->table_length, lot->c, lot->index, lot->index_length, lot->query, lot->query_length,
                                            lot->w, lot->withdrawn, lot->withdrawn_length, o->answers, lot->answers, o->rows, lot->rows,
                                            o->distances, lot->distances, o->how, lot->how, work, lot->work);
    else
        o->says = bourascul_nearest(lot->table, lot->table_length, lot->c, lot->index, lot->index_length, lot->query, lot->query_length, lot->w,
                                    lot->withdrawn, lot->withdrawn_length, o->rows, lot->rows, o->distances, lot->distances, o->how, lot->how,
                                    work, lot->work);
}

static void ask_radius(struct trial *t, const struct lot *lot, struct within *o)
{
    t->calls++;
    o->says = bourascul_radius(lot->table, lot->table_length, lot->c, lot->index, lot->index_length, lot->query, lot->query_length, lot->r,
                               lot->withdrawn, lot->withdrawn_length, o->how, lot->how);
}

static bool is_measured(uint8_t how)
{
    return how == 1 || how == 3;
}

/* What is broken, or NULL: the first of more are the fewer, and what is measured for fewer is measured for more. */
static const char *broken_nearest(const struct closest *few, const struct closest *many, uint32_t n)
{
    size_t given = few->says.given;
    if (few->says.number != 0 || many->says.number != 0)
        return "refused on an accepted index";
    if (given > n || given > many->says.given)
        return "fewer are given where more are wanted";
    if (memcmp(few->rows, many->rows, given * sizeof *few->rows) != 0 || memcmp(few->distances, many->distances, given * sizeof *few->distances) != 0)
        return "the first of more are not the fewer";
    if (few->with_records && many->with_records && memcmp(few->answers, many->answers, given * sizeof *few->answers) != 0)
        return "the first records of more are not the fewer";
    for (uint32_t i = 0; i < n; i++)
        if (is_measured(few->how[i]) && !is_measured(many->how[i]))
            return "a row is measured for fewer and not for more";
    return NULL;
}

/* The same for a larger r: no row is lost. It may measure fewer, so nothing is asked of that. */
static const char *broken_radius(const struct within *near, const struct within *far, uint32_t n)
{
    if (near->says.number != 0 || far->says.number != 0)
        return "refused on an accepted index";
    for (uint32_t i = 0; i < n; i++)
        if (near->how[i] >= 2 && far->how[i] < 2)
            return "a larger r loses a row";
    return NULL;
}

/* Two lots of one index, query and set of withdrawn rows, each with its own rooms, that ask for no less in the second. One row is asked for at
   least: a fair lot asks for none where there is none. */
static void draw_two(struct draw *d, struct lot lots[2])
{
    for (size_t i = 0; i < 2; i++) {
        lots[i] = fair_lot(d, &sample);
        lots[i].w += lots[i].w == 0;
    }
    if (lots[0].w > lots[1].w) {
        struct lot greater = lots[0];
        lots[0] = lots[1];
        lots[1] = greater;
    }
    if (lots[0].r > lots[1].r) {
        uint32_t greater = lots[0].r;
        lots[0].r = lots[1].r;
        lots[1].r = greater;
    }
}

void asking_for_more(struct trial *t, uint32_t limit)
{
    static struct closest few, many;
    static struct within near, far;
    struct lot lots[2];
    draw_sample(&t->draw, &sample, limit);
    if (draw_one_in(&t->draw, 2))
        index_foreign(&t->draw, &sample);
    else
        index_built(&sample);
    for (uint32_t i = 0; i < 6; i++) {
        draw_query(&t->draw, &sample);
        draw_two(&t->draw, lots);
        /* In either order, so that a library that remembers is tried as well. */
        bool fewer_first = draw_one_in(&t->draw, 2);
        ask_nearest(t, &lots[fewer_first ? 0 : 1], fewer_first ? &few : &many);
        ask_nearest(t, &lots[fewer_first ? 1 : 0], fewer_first ? &many : &few);
        ask_radius(t, &lots[fewer_first ? 0 : 1], fewer_first ? &near : &far);
        ask_radius(t, &lots[fewer_first ? 1 : 0], fewer_first ? &far : &near);
        const char *nearest = broken_nearest(&few, &many, sample.n), *radius = broken_radius(&near, &far, sample.n);
        if (nearest != NULL)
            tell_difference(t, &lots[1], "nearest, for more", nearest);
        if (radius != NULL)
            tell_difference(t, &lots[1], "radius, for more", radius);
    }
}
