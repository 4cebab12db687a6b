/* 02's R-2: the table's last row goes into an index of the rows before it, whether or not that index fits the table. */
#include "naive_inner.h"

#include <stdlib.h>
#include <string.h>

/* ---- On the way down ---- */

/* The child whose first is closest to the row, the earliest among equals. */
static struct node *closest_child(const struct tree *t, const struct node *v, uint32_t row)
{
    uint32_t closest = 0;
    for (uint32_t j = 1; j < t->m; j++)
        if (naive_between(t, first_of(t, v->child[j]), row) < naive_between(t, first_of(t, v->child[closest]), row))
            closest = j;
    return v->child[closest];
}

/* The nodes from the root to the row's leaf; gives the leaf's depth. */
static uint32_t find_way(const struct tree *t, uint32_t row, struct node **way)
{
    uint32_t depth = 0;
    for (way[0] = t->root; way[depth]->child != NULL; depth++)
        way[depth + 1] = closest_child(t, way[depth], row);
    return depth;
}

/* One member more, so far from the node's first. A node of one row had no inner reach. */
static void take_in(struct node *v, uint32_t far)
{
    v->radius = greater(v->radius, far);
    if (v->count == 1 || far < v->inner_reach)
        v->inner_reach = far;
    v->count++;
}

/* ---- The new position ---- */

/* The nodes whose runs lie behind position p start one later. */
static void move_behind(const struct tree *t, struct node *v, uint32_t p)
{
    if (v->start >= p)
        v->start++;
    for (uint32_t j = 0; v->child != NULL && j < t->m; j++)
        move_behind(t, v->child[j], p);
}

/* The n words with one more in front of position p. */
static uint32_t *with_one_more(uint32_t *words, uint32_t n, uint32_t p, uint32_t word)
{
    uint32_t *longer = naive_fresh((size_t)n + 1, sizeof *longer);
    memcpy(longer, words, p * sizeof *words);
    longer[p] = word;
    memcpy(longer + p + 1, words + p, (n - p) * sizeof *words);
    free(words);
    return longer;
}

/* ---- The leaf ---- */

static bool has_row_twice(const struct tree *t, const struct node *v)
{
    for (uint32_t p = v->start; p < v->start + v->count; p++)
        for (uint32_t q = v->start; q < p; q++)
            if (t->row[p] == t->row[q])
                return true;
    return false;
}

static void measure_leaf(struct tree *t, const struct node *v)
{
    for (uint32_t p = v->start; p < v->start + v->count; p++)
        t->stored[p] = naive_between(t, first_of(t, v), t->row[p]);
}

/* The node keeps its own reach; what is below it is the build's. */
static void split_leaf(struct tree *t, struct node *v, uint32_t depth)
{
    qsort(t->row + v->start + 1, v->count - 1, sizeof *t->row, naive_by_number);
    struct node *grown = naive_grow(t, v->start, v->count, depth);
    v->child = grown->child;
    free(grown);
}

/* ---- The call ---- */

void naive_add_row(struct tree *t, uint32_t row)
{
    struct node *way[MOST_DEPTH + 1];
    uint32_t depth = find_way(t, row, way), place = way[depth]->start + way[depth]->count;
    for (uint32_t k = 0; k <= depth; k++)
        take_in(way[k], naive_between(t, first_of(t, way[k]), row));
    move_behind(t, t->root, place);
    t->row = with_one_more(t->row, t->n, place, row);
    t->stored = with_one_more(t->stored, t->n, place, 0);
    t->n++;
    if (way[depth]->count > t->l && depth < MOST_DEPTH && !has_row_twice(t, way[depth]))
        split_leaf(t, way[depth], depth);
    else
        measure_leaf(t, way[depth]);
}

/* The index is that of the rows but the last; there is none of a table without rows. */
static struct faults append_faults(struct naive_table table, struct naive_index index, struct naive_room room, struct naive_room work)
{
    struct faults f = naive_table_faults(table);
    size_t n = naive_rows_of(table);
    struct naive_table before = { table.columns, table.length - table.c, table.c };
    f.met[5] = room.length < 12 * n + 8 || work.length < 6 * n;
    f.met[8] = n == 0;
    if (n > 0)
        naive_index_faults(&f, index, before);
    naive_circle_fault(&f, index, table, (struct naive_query){ NULL, 0 });
    return f;
}

struct naive_says naive_append(struct naive_table table, struct naive_index index, struct naive_room room, struct naive_room work)
{
    struct faults f = append_faults(table, index, room, work);
    const uint32_t *w = index.words;
    if (naive_lowest(&f) != 0)
        return says(naive_lowest(&f), 0, 0);
    if (w[1] == 0)
        return naive_build(table, w[3], w[4], w[7], 2, room, work);
    struct tree t = naive_read_tree(w, table);
    naive_add_row(&t, t.n);
    uint32_t nodes = naive_put_tree(&t, room.words);
    naive_clear_work(work, t.n);
    naive_free_tree(&t);
    return says(0, (uint32_t)naive_words_asked(room.words), nodes);
}
