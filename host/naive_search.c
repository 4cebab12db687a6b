/* 01's searches, with 02's inner reach and withdrawn rows: radius by its recursive rules, nearest by sorting all rows that remain and by home
   bounds from the top down. */
#include "naive_inner.h"

#include <stdlib.h>

/* ---- Which rows are measured ---- */

/* A search under way: the tree and each row's distance from the query. Where a row is measured is told by `how`. */
struct search {
    struct tree tree;
    uint32_t *x;
    uint32_t r;
    struct naive_set withdrawn;
    uint8_t *how;
};

static struct search begin_search(struct naive_index index, struct naive_table table, const uint16_t *query, uint32_t r, struct naive_set withdrawn,
                                  uint8_t *how)
{
    struct search s = { naive_read_tree(index.words, table), NULL, r, withdrawn, how };
    s.x = naive_fresh(s.tree.n, sizeof *s.x);
    for (uint32_t i = 0; i < s.tree.n; i++)
        s.x[i] = naive_distance(query, table.columns + (size_t)i * table.c, table.c, s.tree.circles);
    return s;
}

static void end_search(struct search *s)
{
    free(s->x);
    naive_free_tree(&s->tree);
}

static uint32_t first_distance(const struct search *s, const struct node *v)
{
    return s->x[first_of(&s->tree, v)];
}

static uint32_t least_over_centres(const struct search *s, const struct node *v)
{
    uint32_t y = first_distance(s, v->child[0]);
    for (uint32_t j = 1; j < s->tree.m; j++)
        if (first_distance(s, v->child[j]) < y)
            y = first_distance(s, v->child[j]);
    return y;
}

/* It speaks of the child's members other than its first. The root is no child, so its bound is 0. */
static uint32_t child_bound(const struct search *s, const struct node *child, uint32_t parents, uint32_t y)
{
    uint32_t x = first_distance(s, child);
    uint32_t beyond = x > child->radius ? x - child->radius : 0;
    uint32_t within = child->inner_reach > x ? child->inner_reach - x : 0;
    return greater(parents, greater(greater(beyond, within), (x - y + 1) / 2));
}

/* ---- Radius ---- */

/* Marks are set in the descent's order, and out unmeasured is not set: it stands there from the start. So where a row number stands
   twice, the last mark that is not 0 stands. A withdrawn row is never in: 1 if measured, and else its mark is 0. */
static void mark(struct search *s, uint32_t row, uint8_t how)
{
    uint8_t shown = naive_is_in(s->withdrawn, row) ? how % 2 : how;
    if (shown != 0)
        s->how[row] = shown;
}

static void mark_measured(struct search *s, uint32_t row)
{
    mark(s, row, s->x[row] <= s->r ? 3 : 1);
}

static void treat_leaf(struct search *s, const struct node *v)
{
    uint32_t x = first_distance(s, v);
    for (uint32_t p = v->start + 1; p < v->start + v->count; p++) {
        uint32_t row = s->tree.row[p], stored = s->tree.stored[p];
        if (apart(x, stored) > s->r)
            continue;
        if (x + stored <= s->r)
            mark(s, row, 2);
        else
            mark_measured(s, row);
    }
}

/* The node's first is measured before this is called, and keeps the mark of its own distance. */
static void descend(struct search *s, const struct node *v, uint32_t bound)
{
    if (first_distance(s, v) + v->radius <= s->r) {
        for (uint32_t p = v->start + 1; p < v->start + v->count; p++)
            mark(s, s->tree.row[p], 2);
        return;
    }
    if (bound > s->r)
        return;
    if (v->child == NULL) {
        treat_leaf(s, v);
        return;
    }
    uint32_t y = least_over_centres(s, v);
    for (uint32_t j = 1; j < s->tree.m; j++)
        mark_measured(s, first_of(&s->tree, v->child[j]));
    for (uint32_t j = 0; j < s->tree.m; j++)
        descend(s, v->child[j], child_bound(s, v->child[j], bound, y));
}

static uint32_t tally(const uint8_t *how, uint32_t n, uint8_t a, uint8_t b)
{
    uint32_t sum = 0;
    for (uint32_t i = 0; i < n; i++)
        sum += how[i] == a || how[i] == b;
    return sum;
}

struct naive_says naive_radius(struct naive_table table, struct naive_index index, struct naive_query query, uint32_t r, struct naive_set withdrawn,
                               struct naive_bytes how)
{
    struct faults f = naive_table_faults(table);
    f.met[5] = how.length < naive_rows_of(table);
    f.met[6] = query.length != table.c;
    naive_index_faults(&f, index, table);
    naive_circle_fault(&f, index, table, query);
    f.met[20] = naive_set_bad(withdrawn, naive_rows_of(table));
    if (naive_lowest(&f) != 0)
        return says(naive_lowest(&f), 0, 0);
    struct search s = begin_search(index, table, query.columns, r, withdrawn, how.bytes);
    uint32_t n = s.tree.n;
    for (uint32_t i = 0; i < n; i++)
        how.bytes[i] = 0;
    if (n > 0) {
        mark_measured(&s, first_of(&s.tree, s.tree.root));
        descend(&s, s.tree.root, 0);
    }
    end_search(&s);
    return says(0, tally(how.bytes, n, 2, 3), tally(how.bytes, n, 1, 3));
}

/* ---- Nearest ---- */

/* Home bounds from the top down: a centre that is not its node's first is at home there, any other row in its leaf. */
static void find_homes(const struct search *s, const struct node *v, uint32_t bound, uint32_t *home)
{
    if (v->child == NULL) {
        for (uint32_t p = v->start + 1; p < v->start + v->count; p++)
            home[s->tree.row[p]] = greater(bound, apart(first_distance(s, v), s->tree.stored[p]));
        return;
    }
    uint32_t y = least_over_centres(s, v);
    for (uint32_t j = 1; j < s->tree.m; j++)
        home[first_of(&s->tree, v->child[j])] = bound;
    for (uint32_t j = 0; j < s->tree.m; j++)
        find_homes(s, v->child[j], child_bound(s, v->child[j], bound, y), home);
}

static int by_distance(const void *a, const void *b)
{
    const struct naive_answer *x = a, *y = b;
    if (x->distance != y->distance)
        return x->distance < y->distance ? -1 : 1;
    return (x->row > y->row) - (x->row < y->row);
}

/* The rows that are not withdrawn, in order; `*remaining` gets how many. */
static struct naive_answer *sorted_rows(const struct search *s, uint32_t *remaining)
{
    struct naive_answer *all = naive_fresh(s->tree.n, sizeof *all);
    *remaining = 0;
    for (uint32_t i = 0; i < s->tree.n; i++)
        if (!naive_is_in(s->withdrawn, i))
            all[(*remaining)++] = (struct naive_answer){ i, s->x[i] };
    qsort(all, *remaining, sizeof *all, by_distance);
    return all;
}

/* How-bytes of a search for w that gives the first `given` of `remaining` rows in order. */
static void mark_nearest(struct search *s, const struct naive_answer *all, uint32_t remaining, uint32_t given, uint32_t w)
{
    uint32_t n = s->tree.n;
    uint32_t *home = naive_fresh(n, sizeof *home);
    if (n > 0) {
        home[first_of(&s->tree, s->tree.root)] = 0;
        find_homes(s, s->tree.root, 0, home);
    }
    for (uint32_t i = 0; i < n; i++)
        s->how[i] = remaining < w || home[i] <= all[given - 1].distance;
    for (uint32_t a = 0; a < given; a++)
        s->how[all[a].row] = 3;
    free(home);
}

static struct naive_says nearest_or(struct faults f, struct naive_table table, struct naive_index index, struct naive_query query, uint32_t w,
                                    struct naive_set withdrawn, struct naive_room rows, struct naive_room distances, struct naive_bytes how,
                                    struct naive_room work)
{
    if (naive_lowest(&f) != 0)
        return says(naive_lowest(&f), 0, 0);
    struct search s = begin_search(index, table, query.columns, 0, withdrawn, how.bytes);
    uint32_t n = s.tree.n, remaining;
    struct naive_answer *all = sorted_rows(&s, &remaining);
    uint32_t given = w < remaining ? w : remaining;
    mark_nearest(&s, all, remaining, given, w);
    for (uint32_t a = 0; a < given; a++) {
        rows.words[a] = all[a].row;
        distances.words[a] = all[a].distance;
    }
    naive_clear_work(work, n);
    free(all);
    end_search(&s);
    return says(0, given, tally(how.bytes, n, 1, 3));
}

static size_t answers_asked(struct naive_table table, uint32_t w)
{
    return w < naive_rows_of(table) ? w : naive_rows_of(table);
}

static struct faults nearest_faults(struct naive_table table, struct naive_index index, struct naive_query query, uint32_t w,
                                    struct naive_set withdrawn, size_t rows, size_t distances, size_t how, size_t work)
{
    struct faults f = naive_table_faults(table);
    size_t n = naive_rows_of(table), asked = answers_asked(table, w);
    f.met[5] = rows < asked || distances < asked || how < n || work < 6 * n;
    f.met[6] = query.length != table.c;
    f.met[7] = w == 0;
    naive_index_faults(&f, index, table);
    naive_circle_fault(&f, index, table, query);
    f.met[20] = naive_set_bad(withdrawn, n);
    return f;
}

struct naive_says naive_nearest(struct naive_table table, struct naive_index index, struct naive_query query, uint32_t w, struct naive_set withdrawn,
                                struct naive_room rows, struct naive_room distances, struct naive_bytes how, struct naive_room work)
{
    struct faults f = nearest_faults(table, index, query, w, withdrawn, rows.length, distances.length, how.length, work.length);
    return nearest_or(f, table, index, query, w, withdrawn, rows, distances, how, work);
}

struct naive_says naive_nearest_answers(struct naive_table table, struct naive_index index, struct naive_query query, uint32_t w,
                                        struct naive_set withdrawn, struct naive_records answers, struct naive_room rows, struct naive_room distances,
                                        struct naive_bytes how, struct naive_room work)
{
    struct faults f = nearest_faults(table, index, query, w, withdrawn, rows.length, distances.length, how.length, work.length);
    f.met[5] = f.met[5] || answers.length < answers_asked(table, w);
    struct naive_says s = nearest_or(f, table, index, query, w, withdrawn, rows, distances, how, work);
    for (uint32_t a = 0; s.number == 0 && a < s.one; a++) {
        answers.records[a].row = rows.words[a];
        answers.records[a].distance = distances.words[a];
    }
    return s;
}
