/* 01's tree with 02's inner reach: built by the definition, read from an index in shape, checked in full; and what reading an
   edition 1 card gives. */
#include "naive_inner.h"

#include <stdlib.h>
#include <string.h>

/* ---- The tree ---- */

static void free_node(const struct tree *t, struct node *v)
{
    for (uint32_t j = 0; v->child != NULL && j < t->m; j++)
        free_node(t, v->child[j]);
    free(v->child);
    free(v);
}

void naive_free_tree(struct tree *t)
{
    if (t->root != NULL)
        free_node(t, t->root);
    free(t->row);
    free(t->stored);
}

static struct tree bare_tree(struct naive_table table, uint32_t n, uint32_t m, uint32_t l, uint32_t circles, uint32_t edition)
{
    struct tree t = { table, n, m, l, circles, edition, NULL, NULL, NULL };
    t.row = naive_fresh(n, sizeof *t.row);
    t.stored = naive_fresh(n, sizeof *t.stored);
    return t;
}

static uint32_t true_radius(const struct tree *t, const struct node *v)
{
    uint32_t most = 0;
    for (uint32_t p = v->start; p < v->start + v->count; p++)
        most = greater(most, naive_between(t, first_of(t, v), t->row[p]));
    return most;
}

/* The least distance from the node's first to what stands at its other positions, 0 where there is none. */
static uint32_t true_inner_reach(const struct tree *t, const struct node *v)
{
    uint32_t least = UINT32_MAX;
    for (uint32_t p = v->start + 1; p < v->start + v->count; p++) {
        uint32_t d = naive_between(t, first_of(t, v), t->row[p]);
        least = d < least ? d : least;
    }
    return v->count == 1 ? 0 : least;
}

/* ---- Build ---- */

/* Positions of the m centres: the first, then each time the row whose least distance to those before is greatest,
   the lowest row number among equals. */
static void choose_centres(const struct tree *t, const struct node *v, uint32_t *centre)
{
    uint32_t *least = naive_fresh(v->count, sizeof *least);
    bool *chosen = naive_fresh(v->count, sizeof *chosen);
    const uint32_t *row = t->row + v->start;
    memset(least, 0xff, v->count * sizeof *least);
    for (uint32_t j = 0, now = 0; j < t->m; j++) {
        for (uint32_t i = 0, found = 0; j > 0 && i < v->count; i++)
            if (!chosen[i] && (!found || least[i] > least[now] || (least[i] == least[now] && row[i] < row[now]))) {
                now = i;
                found = 1;
            }
        chosen[now] = true;
        centre[j] = v->start + now;
        for (uint32_t i = 0; i < v->count; i++) {
            uint32_t d = naive_between(t, row[now], row[i]);
            least[i] = d < least[i] ? d : least[i];
        }
    }
    free(least);
    free(chosen);
}

/* The group of the row at position p: its own for a centre, else the closest centre's, the earliest among equals. */
static uint32_t group_of(const struct tree *t, const uint32_t *centre, uint32_t p)
{
    uint32_t closest = 0;
    for (uint32_t j = 0; j < t->m; j++)
        if (centre[j] == p)
            return j;
    for (uint32_t j = 1; j < t->m; j++)
        if (naive_between(t, t->row[centre[j]], t->row[p]) < naive_between(t, t->row[centre[closest]], t->row[p]))
            closest = j;
    return closest;
}

int naive_by_number(const void *a, const void *b)
{
    uint32_t x = *(const uint32_t *)a, y = *(const uint32_t *)b;
    return (x > y) - (x < y);
}

/* Rewrites v's run group by group, each with its centre first and the rest ascending; `size` gets the groups' sizes. */
static void set_out_groups(struct tree *t, const struct node *v, const uint32_t *centre, uint32_t *size)
{
    uint32_t *run = naive_fresh(v->count, sizeof *run), *group = naive_fresh(v->count, sizeof *group), at = 0;
    for (uint32_t i = 0; i < v->count; i++)
        group[i] = group_of(t, centre, v->start + i);
    for (uint32_t j = 0; j < t->m; j++) {
        uint32_t begin = at;
        run[at++] = t->row[centre[j]];
        for (uint32_t i = 0; i < v->count; i++)
            if (group[i] == j && v->start + i != centre[j])
                run[at++] = t->row[v->start + i];
        qsort(run + begin + 1, at - begin - 1, sizeof *run, naive_by_number);
        size[j] = at - begin;
    }
    memcpy(t->row + v->start, run, v->count * sizeof *run);
    free(run);
    free(group);
}

struct node *naive_grow(struct tree *t, uint32_t start, uint32_t count, uint32_t depth)
{
    struct node *v = naive_fresh(1, sizeof *v);
    v->start = start;
    v->count = count;
    v->radius = true_radius(t, v);
    v->inner_reach = t->edition == 2 ? true_inner_reach(t, v) : 0;
    if (count <= t->l || depth == MOST_DEPTH) {
        for (uint32_t p = start; p < start + count; p++)
            t->stored[p] = naive_between(t, first_of(t, v), t->row[p]);
        return v;
    }
    uint32_t centre[MOST_CENTRES], size[MOST_CENTRES];
    choose_centres(t, v, centre);
    set_out_groups(t, v, centre, size);
    v->child = naive_fresh(t->m, sizeof *v->child);
    for (uint32_t j = 0, at = start; j < t->m; at += size[j], j++)
        v->child[j] = naive_grow(t, at, size[j], depth + 1);
    return v;
}

static uint32_t count_nodes(const struct tree *t, const struct node *v)
{
    uint32_t sum = 1;
    for (uint32_t j = 0; v->child != NULL && j < t->m; j++)
        sum += count_nodes(t, v->child[j]);
    return sum;
}

/* The nodes by number. Taking each node's children behind all that wait already is the numbering level by level. */
static const struct node **by_level(const struct tree *t, uint32_t nodes)
{
    const struct node **list = naive_fresh(nodes, sizeof *list);
    uint32_t known = 0;
    if (nodes > 0)
        list[known++] = t->root;
    for (uint32_t k = 0; k < nodes; k++)
        for (uint32_t j = 0; list[k]->child != NULL && j < t->m; j++)
            list[known++] = list[k]->child[j];
    return list;
}

static void put_index(const struct tree *t, uint32_t nodes, uint32_t *w)
{
    const struct node **list = by_level(t, nodes);
    const uint32_t header[HEADER_WORDS] = { t->edition, t->n, t->table.c, t->m, t->l, nodes, 1, t->circles };
    memcpy(w, header, sizeof header);
    for (uint32_t k = 0, child = 1; k < nodes; k++) {
        uint32_t *at = w + HEADER_WORDS + naive_node_words(t->edition) * k;
        bool inner = list[k]->child != NULL;
        at[0] = list[k]->start;
        at[1] = list[k]->count;
        at[2] = inner ? child : 0;
        at[3] = list[k]->radius;
        if (t->edition == 2)
            at[4] = list[k]->inner_reach;
        child += inner ? t->m : 0;
    }
    for (uint32_t p = 0; p < t->n; p++) {
        w[naive_pair_place(w, p)] = t->row[p];
        w[naive_pair_place(w, p) + 1] = t->stored[p];
    }
    free(list);
}

uint32_t naive_put_tree(const struct tree *t, uint32_t *room)
{
    uint32_t nodes = t->root == NULL ? 0 : count_nodes(t, t->root);
    put_index(t, nodes, room);
    return nodes;
}

/* Puts the index into the room and gives the number of nodes. */
static uint32_t build_in(uint32_t edition, struct naive_table table, uint32_t m, uint32_t l, uint32_t circles, uint32_t *room)
{
    struct tree t = bare_tree(table, (uint32_t)naive_rows_of(table), m, l, circles, edition);
    for (uint32_t i = 0; i < t.n; i++)
        t.row[i] = i;
    if (t.n > 0)
        t.root = naive_grow(&t, 0, t.n, 0);
    uint32_t nodes = naive_put_tree(&t, room);
    naive_free_tree(&t);
    return nodes;
}

struct naive_says naive_build(struct naive_table table, uint32_t m, uint32_t l, uint32_t circles, uint32_t edition, struct naive_room room,
                              struct naive_room work)
{
    struct faults f = naive_table_faults(table);
    size_t n = naive_rows_of(table);
    f.met[2] = m < 2 || m > MOST_CENTRES || l < m || l > MOST_LEAF || naive_beyond_columns(circles, table.c) || edition != 2;
    f.met[5] = room.length < 12 * n + 8 || work.length < 6 * n;
    f.met[19] = !f.met[1] && naive_off_circle(table.columns, table.length, table.c, circles);
    if (naive_lowest(&f) != 0)
        return says(naive_lowest(&f), 0, 0);
    uint32_t nodes = build_in(edition, table, m, l, circles, room.words);
    naive_clear_work(work, n);
    return says(0, (uint32_t)naive_words_asked(room.words), nodes);
}

uint32_t naive_build_old(struct naive_table table, uint32_t m, uint32_t l, uint32_t circles, uint32_t *room)
{
    build_in(1, table, m, l, circles, room);
    return (uint32_t)naive_words_asked(room);
}

/* ---- Reading an index in shape ---- */

static struct node *read_node(const uint32_t *w, uint32_t k)
{
    const uint32_t *words = w + HEADER_WORDS + naive_node_words(w[0]) * k;
    struct node *v = naive_fresh(1, sizeof *v);
    v->start = words[0];
    v->count = words[1];
    v->radius = words[3];
    v->inner_reach = w[0] == 2 ? words[4] : 0;
    if (words[2] == 0)
        return v;
    v->child = naive_fresh(w[3], sizeof *v->child);
    for (uint32_t j = 0; j < w[3]; j++)
        v->child[j] = read_node(w, words[2] + j);
    return v;
}

struct tree naive_read_tree(const uint32_t *w, struct naive_table table)
{
    struct tree t = bare_tree(table, w[1], w[3], w[4], w[7], w[0]);
    for (uint32_t p = 0; p < t.n; p++) {
        t.row[p] = w[naive_pair_place(w, p)];
        t.stored[p] = w[naive_pair_place(w, p) + 1];
    }
    if (t.n > 0)
        t.root = read_node(w, 0);
    return t;
}

/* ---- Reading an old card ---- */

static void find_inner_reaches(const struct tree *t, struct node *v)
{
    v->inner_reach = true_inner_reach(t, v);
    for (uint32_t j = 0; v->child != NULL && j < t->m; j++)
        find_inner_reaches(t, v->child[j]);
}

void naive_put_wide(const uint32_t *w, struct naive_table table, uint32_t *room)
{
    struct tree t = naive_read_tree(w, table);
    t.edition = 2;
    if (t.root != NULL)
        find_inner_reaches(&t, t.root);
    put_index(&t, w[5], room);
    naive_free_tree(&t);
}

/* ---- The full check ---- */

/* A fault's places, where `found`. */
struct place {
    bool found;
    uint32_t one, two;
};

static struct place row_again(const struct tree *t)
{
    struct place at = { false, 0, 0 };
    bool *seen = naive_fresh(t->n, sizeof *seen);
    for (uint32_t p = 0; p < t->n && !at.found; p++) {
        if (seen[t->row[p]]) {
            at.found = true;
            at.one = p;
        }
        seen[t->row[p]] = true;
    }
    free(seen);
    return at;
}

static struct place wrong_distance(const struct tree *t, const struct node **list, uint32_t nodes)
{
    struct place at = { false, 0, 0 };
    for (uint32_t k = 0; k < nodes; k++)
        for (uint32_t p = list[k]->start; list[k]->child == NULL && p < list[k]->start + list[k]->count; p++)
            if (t->stored[p] != naive_between(t, first_of(t, list[k]), t->row[p]) && (!at.found || p < at.one)) {
                at.found = true;
                at.one = p;
            }
    return at;
}

static bool inner_reach_wrong(const struct tree *t, const struct node *v)
{
    return v->inner_reach != true_inner_reach(t, v);
}

static struct place wrong_reach(const struct tree *t, const struct node **list, uint32_t nodes)
{
    struct place at = { false, 0, 0 };
    for (uint32_t k = 0; k < nodes && !at.found; k++)
        if (list[k]->radius != true_radius(t, list[k]) || inner_reach_wrong(t, list[k])) {
            at.found = true;
            at.one = k;
        }
    return at;
}

/* Whether a centre of v is closer to the row at position p, a member of v's child `own`, than that child's. */
static bool closer_elsewhere(const struct tree *t, const struct node *v, const struct node *own, uint32_t p)
{
    uint32_t mine = naive_between(t, first_of(t, own), t->row[p]);
    for (uint32_t j = 0; j < t->m; j++)
        if (naive_between(t, first_of(t, v->child[j]), t->row[p]) < mine)
            return true;
    return false;
}

static struct place wrong_group(const struct tree *t, const struct node **list, uint32_t nodes)
{
    struct place at = { false, 0, 0 };
    for (uint32_t k = 0; k < nodes; k++)
        for (uint32_t j = 0; list[k]->child != NULL && j < t->m; j++) {
            const struct node *own = list[k]->child[j];
            for (uint32_t p = own->start; p < own->start + own->count; p++)
                if (closer_elsewhere(t, list[k], own, p)) {
                    at.found = true;
                    at.one = k;
                    at.two = p;
                    return at;
                }
        }
    return at;
}

static struct naive_says full_check(const struct tree *t, uint32_t nodes)
{
    const struct node **list = by_level(t, nodes);
    const struct place at[4] = { row_again(t), wrong_distance(t, list, nodes), wrong_reach(t, list, nodes), wrong_group(t, list, nodes) };
    free(list);
    for (uint32_t k = 0; k < 4; k++)
        if (at[k].found)
            return says(10 + k, at[k].one, at[k].two);
    return says(0, 0, 0);
}

struct naive_says naive_check(struct naive_table table, struct naive_index index, struct naive_room work)
{
    struct faults f = naive_table_faults(table);
    f.met[5] = work.length < 6 * naive_rows_of(table);
    naive_index_faults(&f, index, table);
    naive_circle_fault(&f, index, table, (struct naive_query){ NULL, 0 });
    if (naive_lowest(&f) != 0)
        return says(naive_lowest(&f), 0, 0);
    struct tree t = naive_read_tree(index.words, table);
    struct naive_says s = full_check(&t, index.words[5]);
    naive_clear_work(work, t.n);
    naive_free_tree(&t);
    return s;
}
