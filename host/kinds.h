/* The kinds of trial. */
#ifndef HOST_KINDS_H
#define HOST_KINDS_H

#include "calls.h"

struct kind {
    const char *name;
    /* One case, with tables of at most `limit` rows. */
    void (*run)(struct trial *t, uint32_t limit);
    /* 1: in every round; k: in every k-th. */
    uint32_t every;
};

extern const struct kind kinds[];
extern const size_t kinds_count;

/* The kinds that have a file of their own, appends.c. */
void append_any(struct trial *t, uint32_t limit);
void append_twice(struct trial *t, uint32_t limit);
void append_chain(struct trial *t, uint32_t limit);
void append_chain_on(struct trial *t, uint32_t limit);
void append_equal(struct trial *t, uint32_t limit);
void append_pairs(struct trial *t, uint32_t limit);
void night_any(struct trial *t, uint32_t limit);
void night_twice(struct trial *t, uint32_t limit);
void nights_from_none(struct trial *t, uint32_t limit);
void night_equal(struct trial *t, uint32_t limit);
void night_pairs(struct trial *t, uint32_t limit);

/* Those of circles.c. */
void each_set_of_circles(struct trial *t, uint32_t limit);
void circle_pairs(struct trial *t, uint32_t limit);

/* That of ceilings.c. */
void ceilings(struct trial *t, uint32_t limit);

/* Those of sets.c. */
void each_set_length(struct trial *t, uint32_t limit);
void mixed_orders(struct trial *t, uint32_t limit);
void order_refusals(struct trial *t, uint32_t limit);

/* And that of more.c: two searches, of which the second asks for more. */
void asking_for_more(struct trial *t, uint32_t limit);

/* What the files of kinds share. Each call but the build. */
void every_call(struct trial *t, const struct lot *lot);
/* Too short for what is asked, half of the time by one. */
size_t shorter(struct draw *d, size_t length);
uint32_t draw_bad_columns(struct draw *d, uint32_t c);

/* 01's own cases on the naive implementation and on the library; gives the number of differences. */
uint32_t self_test(void);

#endif
