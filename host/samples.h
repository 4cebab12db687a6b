/* Drawn tables, indexes, queries and images for the trials, fair and spoilt. */
#ifndef HOST_SAMPLES_H
#define HOST_SAMPLES_H

#include "calls.h"

enum {
    SAMPLE_ROWS = 640,
    SAMPLE_WORDS = 12 * SAMPLE_ROWS + 8 + 64,
    SAMPLE_BLOCKS = SAMPLE_WORDS / 127 + 4,
    SET_WORDS = SAMPLE_ROWS / 32 + 4
};

struct sample {
    uint32_t n, c, m, l, circles, edition;
    uint16_t table[SAMPLE_ROWS * 16];
    uint32_t index[SAMPLE_WORDS];
    size_t index_length;
    uint16_t query[32];
    uint32_t withdrawn[SET_WORDS];
    uint8_t image[SAMPLE_BLOCKS * 512];
    size_t image_length;
};

/* A table of at most `limit` rows, mostly full of ties, with one row more behind it, m and l that give a tree, a set of circles, half of the time
   none, and a query; table and query are on the circles. The edition is 2; no index yet. */
void draw_sample(struct draw *d, struct sample *s, uint32_t limit);
/* The same with n rows. */
void draw_sample_of(struct draw *d, struct sample *s, uint32_t n);
/* n equal rows and one more behind them, with m and l small. */
void draw_equal_rows(struct draw *d, struct sample *s, uint32_t n);
void draw_query(struct draw *d, struct sample *s);
/* The value, or one below 3,600 where column j is a circle. */
uint16_t on_circle(const struct sample *s, uint32_t j, uint32_t value);
/* Sets one number of a circular column of the row to 3,600 or more, or just below; nothing where there is no circle. */
void leave_circle(struct draw *d, const struct sample *s, uint16_t *row);
/* Another row behind the table: one of the table's, a little moved or not, or any. */
void draw_next_row(struct draw *d, struct sample *s);

/* In the sample's edition, 1 or 2: the build's index; an accepted one of another hand (other centres, orders and ties); one in shape
   that fits no table. */
void index_built(struct sample *s);
void index_foreign(struct draw *d, struct sample *s);
void index_wild(struct draw *d, struct sample *s);
/* One of the three, the last seldom. */
void index_any(struct draw *d, struct sample *s);

/* Changes the index in one of many ways; most make it one that is refused. */
void spoil_index(struct draw *d, struct sample *s);
/* Puts at a place of an edition 2 index what the shape does not allow. Needs rows. */
void wrong_shape(struct draw *d, struct sample *s);
/* Words that were never an index, with a header that is possible half of the time. */
void random_words(struct draw *d, struct sample *s);

/* A card of the index's words, whatever they say. */
void draw_image(struct sample *s);
/* The check word of a block set right again. */
void seal_block(struct sample *s, size_t block);
/* Changes the image in one of many ways, often with the check words set right again. */
void spoil_image(struct draw *d, struct sample *s);

/* How many words a node takes in an edition, and how many words of room a build over n rows asks for. */
size_t node_words(uint32_t edition);
size_t build_words(size_t n);
/* How many words come out where a card of the sample's index, of either edition, is read. */
size_t taken_words(const struct sample *s);

/* Which rows are withdrawn: none, all, a row or some, all that stand first in a node of the index, or none of these; words behind the set's are 0. */
void draw_withdrawn(struct draw *d, struct sample *s);

/* As long as is asked, or a little longer. */
size_t longer(struct draw *d, size_t asked);
/* What all calls on the sample are lent, an append the row behind the table with it, with r, w, a node and a set of withdrawn rows drawn, the
   last in the sample; each room is long enough, often longer. */
struct lot fair_lot(struct draw *d, struct sample *s);

#endif
