/* What the naive implementation's own files share; a host programmer needs naive.h alone. */
#ifndef HOST_NAIVE_INNER_H
#define HOST_NAIVE_INNER_H

#include "naive.h"

enum {
    MOST_COLUMNS = 16,
    MOST_ROWS = 1048576,
    MOST_DEPTH = 24,
    MOST_CENTRES = 64,
    MOST_LEAF = 1024,
    MOST_DISTANCE = 1048560,
    CIRCLE = 3600, /* tenths of a degree */
    HEADER_WORDS = 8,
    BLOCK_WORDS = 127,
    BLOCK_BYTES = 512,
    NUMBERS = 27
};

/* The faults that meet a call, by number. */
struct faults {
    bool met[NUMBERS];
};

struct node {
    uint32_t start, count, radius;
    uint32_t inner_reach; /* not in edition 1 */
    struct node **child;  /* the m children, or NULL for a leaf */
};

/* `row` and `stored` stand by position. */
struct tree {
    struct naive_table table;
    uint32_t n, m, l, circles, edition;
    uint32_t *row, *stored;
    struct node *root; /* NULL where there are no rows */
};

static inline uint32_t apart(uint32_t a, uint32_t b)
{
    return a > b ? a - b : b - a;
}

static inline uint32_t greater(uint32_t a, uint32_t b)
{
    return a > b ? a : b;
}

static inline struct naive_says says(uint32_t number, uint32_t one, uint32_t two)
{
    struct naive_says s = { number, one, two };
    return s;
}

/* The row that a node's run starts with. */
static inline uint32_t first_of(const struct tree *t, const struct node *v)
{
    return t->row[v->start];
}

/* Zeroed memory for `count` things, never NULL. */
void *naive_fresh(size_t count, size_t size);
uint32_t naive_between(const struct tree *t, uint32_t i, uint32_t j);

uint32_t naive_lowest(const struct faults *f);
size_t naive_rows_of(struct naive_table t);
struct faults naive_table_faults(struct naive_table t);
/* Adds 8 and 9. */
void naive_index_faults(struct faults *f, struct naive_index x, struct naive_table t);
/* Whether a circular column holds 3,600 or more, in any row. */
bool naive_off_circle(const uint16_t *columns, size_t length, uint32_t c, uint32_t circles);
/* Adds 19, where neither 1 nor 8 is met: by the index's circles, for the table and, where there is one, the query. */
void naive_circle_fault(struct faults *f, struct naive_index x, struct naive_table t, struct naive_query q);
/* 20: the set's length is not n/32 rounded up, or a bit n or above is on. */
bool naive_set_bad(struct naive_set set, size_t n);
/* Whether a bit is on at or above the columns' number. */
bool naive_beyond_columns(uint32_t circles, uint32_t c);
void naive_clear_work(struct naive_room work, size_t n);

/* How many words a node takes in an edition; edition 1 stands on old cards alone. */
size_t naive_node_words(uint32_t edition);
/* How many words a possible header of either edition asks for, and where position p's pair stands. */
size_t naive_words_asked(const uint32_t *w);
size_t naive_pair_place(const uint32_t *w, uint32_t p);

/* The tree that an index in shape describes, of either edition. */
struct tree naive_read_tree(const uint32_t *w, struct naive_table table);
void naive_free_tree(struct tree *t);
/* The node over a run and all below it, by the build's rule; the run has its first in front and the others ascending, and is rewritten. */
struct node *naive_grow(struct tree *t, uint32_t start, uint32_t count, uint32_t depth);
/* Puts the tree's index into the room and gives the number of nodes. */
uint32_t naive_put_tree(const struct tree *t, uint32_t *room);
/* Puts a row into the tree of an index that has rows, whether or not it fits the table. */
void naive_add_row(struct tree *t, uint32_t row);
/* Row numbers ascending, for qsort. */
int naive_by_number(const void *a, const void *b);
/* Puts the edition 2 index of an edition 1 index in shape into the room: each node gets its inner reach (R-4's widening). */
void naive_put_wide(const uint32_t *w, struct naive_table table, uint32_t *room);

#endif
