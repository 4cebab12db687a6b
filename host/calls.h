/* Each call of the library beside the naive one: the same lent content, then every number and every lent byte compared. */
#ifndef HOST_CALLS_H
#define HOST_CALLS_H

#include "draw.h"

/* A kind of trial under way. */
struct trial {
    struct draw draw;
    uint64_t calls, differences;
    char again[160]; /* the command that repeats the present case */
};

/* What a call is lent. Lengths are those told to the call, in elements, so a refusal is tried by a wrong one. */
struct lot {
    const uint16_t *table;
    size_t table_length;
    size_t next; /* the numbers behind the table that an append is lent with it: those of one row, where nothing is wrong, or of a night's */
    const uint16_t *fitting; /* the table that decides the outcome in a trial of two tables, else NULL */
    uint32_t c, m, l, circles, edition;
    const uint32_t *index;
    size_t index_length;
    const uint16_t *query;
    size_t query_length;
    const uint32_t *withdrawn;
    size_t withdrawn_length;
    uint32_t told, row; /* an order's: for how many rows the set is, and the row */
    uint32_t r, w, node;
    size_t room, taken, work, how, rows, distances, answers; /* `room` is a build's, `taken` a reading's */
    size_t append_room, append_work;
    const uint8_t *image;
    size_t image_length;
};

void try_build(struct trial *t, const struct lot *lot);
void try_append(struct trial *t, const struct lot *lot);
void try_append_rows(struct trial *t, const struct lot *lot);
void try_check(struct trial *t, const struct lot *lot);
void try_radius(struct trial *t, const struct lot *lot);
void try_nearest(struct trial *t, const struct lot *lot);
void try_nearest_answers(struct trial *t, const struct lot *lot);
void try_list(struct trial *t, const struct lot *lot);
/* Writing is lent `image_length` bytes of room, reading the image itself. */
void try_write(struct trial *t, const struct lot *lot);
void try_read(struct trial *t, const struct lot *lot);
/* Reading, lent a card with right check words of the lot's index words, whatever they say. */
void try_card(struct trial *t, const struct lot *lot);

/* An order: the row `row` is struck from, or restored to, a set of `told` rows. */
void try_strike(struct trial *t, const struct lot *lot);
void try_restore(struct trial *t, const struct lot *lot);

/* Radius, nearest and nearest with records. */
void try_searches(struct trial *t, const struct lot *lot);

/* One line a call: how often each number was given, and how often the outcome was open. */
void tell_numbers(void);

/* The full check's number by the naive implementation, whatever the lot's rooms are. */
uint32_t naive_verdict(const struct lot *lot);

/* A difference that is not one of a call's outcome. */
void tell_difference(struct trial *t, const struct lot *lot, const char *call, const char *what);

#endif
