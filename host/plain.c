/* Build, shape test and full check of plain.h. */
#include "plain_inner.h"

#include <string.h>

static inline const uint32_t *node_of(const uint32_t *index, uint32_t k)
{
    return index + 8 + NODE_WORDS * (size_t)k;
}

static inline const uint32_t *pairs_of(const uint32_t *index)
{
    return index + 8 + NODE_WORDS * (size_t)index[5];
}

/* ---- Circles ---- */

/* The greatest number of each circular column, looked at once. */
bool plain_off_circle(struct plain_table t)
{
    for (uint32_t left = t.circles; left != 0; left &= left - 1) {
        const uint16_t *at = t.columns + __builtin_ctz(left);
        uint32_t most = 0;
        for (uint32_t i = 0; i < t.n; i++, at += t.c)
            most = greater(most, *at);
        if (most >= CIRCLE)
            return true;
    }
    return false;
}

/* ---- Build ---- */

/* By position: the rows in order, the distance from the closest centre so far, that centre's place among the m with the
   top bit on for a centre, and room to set the groups out. */
struct making {
    struct plain_table table;
    uint32_t m, *order, *least, *group, *order_out, *least_out;
};

#define CENTRE 0x80000000u

/* Measures the run against centre j and gives the position of the next centre. */
static uint32_t one_round(struct making *k, uint32_t start, uint32_t count, uint32_t at, uint32_t j)
{
    const uint16_t *centre = row_of(k->table, k->order[at]);
    uint32_t best = 0, next = start;
    k->least[at] = 0;
    k->group[at] = j | CENTRE;
    for (uint32_t p = start; p < start + count; p++) {
        uint32_t d = far(k->table, centre, row_of(k->table, k->order[p]));
        /* A branch is guessed wrong as often as a row changes its centre, so that both are always stored, as the library does. */
        uint32_t x = k->least[p], g = k->group[p];
        k->least[p] = d < x ? d : x;
        k->group[p] = d < x ? j : g;
        uint32_t key = (k->group[p] & CENTRE) != 0 ? 0 : k->least[p] + 1;
        if (key > best) {
            best = key;
            next = p;
        }
    }
    return next;
}

/* The first centre's distances are there already: only the next centre is to be found. */
static uint32_t first_round(struct making *k, uint32_t start, uint32_t count)
{
    uint32_t best = 0, next = start;
    for (uint32_t p = start; p < start + count; p++) {
        k->group[p] = p == start ? CENTRE : 0;
        if (p > start && k->least[p] + 1 > best) {
            best = k->least[p] + 1;
            next = p;
        }
    }
    return next;
}

/* One counting pass: centres first in their groups, the rest in the order they stood. */
static void set_out(struct making *k, uint32_t start, uint32_t count, uint32_t *size)
{
    uint32_t begin[MOST_CENTRES], at[MOST_CENTRES];
    memset(size, 0, k->m * sizeof *size);
    for (uint32_t p = start; p < start + count; p++)
        size[k->group[p] & ~CENTRE]++;
    for (uint32_t j = 0, next = start; j < k->m; next += size[j], j++) {
        begin[j] = next;
        at[j] = next + 1;
    }
    for (uint32_t p = start; p < start + count; p++) {
        uint32_t g = k->group[p], to = (g & CENTRE) != 0 ? begin[g & ~CENTRE] : at[g]++;
        k->order_out[to] = k->order[p];
        k->least_out[to] = k->least[p];
    }
    memcpy(k->order + start, k->order_out + start, count * sizeof *k->order);
    memcpy(k->least + start, k->least_out + start, count * sizeof *k->least);
}

static void split(struct making *k, uint32_t start, uint32_t count, uint32_t *size)
{
    uint32_t at = first_round(k, start, count);
    for (uint32_t j = 1; j < k->m; j++)
        at = one_round(k, start, count, at, j);
    set_out(k, start, count, size);
}

static uint32_t greatest(const uint32_t *at, uint32_t count)
{
    uint32_t most = 0;
    for (uint32_t i = 0; i < count; i++)
        most = greater(most, at[i]);
    return most;
}

/* The least but for the first, 0 where there is no other. */
static uint32_t least_of_others(const uint32_t *at, uint32_t count)
{
    uint32_t least = count > 1 ? at[1] : 0;
    for (uint32_t i = 2; i < count; i++)
        least = at[i] < least ? at[i] : least;
    return least;
}

static uint32_t make_nodes(struct making *k, uint32_t l, uint32_t *node)
{
    uint32_t nodes = k->table.n > 0, depth = 0, level_end = 1, size[MOST_CENTRES];
    node[0] = 0;
    node[1] = k->table.n;
    for (uint32_t v = 0; v < nodes; v++) {
        if (v == level_end) {
            depth++;
            level_end = nodes;
        }
        uint32_t *at = node + NODE_WORDS * (size_t)v, start = at[0], count = at[1];
        at[2] = 0;
        at[3] = greatest(k->least + start, count);
        at[4] = least_of_others(k->least + start, count);
        if (count <= l || depth == MOST_DEPTH)
            continue;
        split(k, start, count, size);
        at[2] = nodes;
        for (uint32_t j = 0; j < k->m; start += size[j], j++, nodes++) {
            node[NODE_WORDS * (size_t)nodes] = start;
            node[NODE_WORDS * (size_t)nodes + 1] = size[j];
        }
    }
    return nodes;
}

uint32_t plain_build(struct plain_table t, uint32_t m, uint32_t l, uint32_t *room, uint32_t *work)
{
    size_t n = t.n;
    if (plain_off_circle(t))
        return 0;
    struct making k = { t, m, work, work + n, work + 2 * n, work + 3 * n, work + 4 * n };
    for (uint32_t i = 0; i < t.n; i++) {
        k.order[i] = i;
        k.least[i] = far(t, row_of(t, 0), row_of(t, i));
    }
    /* With no rows the root's first two words would be written; the header is then all there is. */
    uint32_t nodes = n == 0 ? 0 : make_nodes(&k, l, room + 8);
    const uint32_t header[8] = { 2, t.n, t.c, m, l, nodes, 1, t.circles };
    memcpy(room, header, sizeof header);
    uint32_t *pair = room + 8 + NODE_WORDS * (size_t)nodes;
    for (size_t p = 0; p < n; p++) {
        pair[2 * p] = k.order[p];
        pair[2 * p + 1] = k.least[p];
    }
    memset(work, 0, 6 * n * sizeof *work);
    return 8 + NODE_WORDS * nodes + 2 * t.n;
}

/* ---- Shape ---- */

static bool positions_right(const uint32_t *index)
{
    const uint32_t *pair = pairs_of(index);
    uint32_t n = index[1], wrong = 0;
    for (size_t p = 0; p < n; p++)
        wrong |= (uint32_t)(pair[2 * p] >= n) | (uint32_t)(pair[2 * p + 1] > MOST_DISTANCE);
    return wrong == 0;
}

static bool children_tile(const uint32_t *index, const uint32_t *v, uint32_t m)
{
    uint64_t at = v[0];
    for (uint32_t j = 0; j < m; j++) {
        const uint32_t *child = node_of(index, v[2] + j);
        if (child[0] != at)
            return false;
        at += child[1];
    }
    return at == (uint64_t)v[0] + v[1];
}

bool plain_shape(const uint32_t *index)
{
    uint32_t n = index[1], m = index[3], l = index[4], nodes = index[5], next = 1, depth = 0, level_end = 1;
    if (nodes > 0 && (node_of(index, 0)[0] != 0 || node_of(index, 0)[1] != n))
        return false;
    for (uint32_t k = 0; k < nodes; k++) {
        if (k == level_end) {
            depth++;
            level_end = next;
        }
        const uint32_t *v = node_of(index, k);
        if (k >= next || v[1] == 0 || v[3] > MOST_DISTANCE || v[4] > MOST_DISTANCE)
            return false;
        if (v[1] <= l || depth == MOST_DEPTH) {
            if (v[2] != 0)
                return false;
            continue;
        }
        if (v[2] != next || nodes - next < m || !children_tile(index, v, m))
            return false;
        next += m;
    }
    return positions_right(index);
}

/* ---- Check ---- */

/* The lowest faults so far; `none` stands for no fault. */
struct faults {
    uint32_t distance, radius, node, position;
};

static const uint32_t none = UINT32_MAX;

static uint32_t row_again(const uint32_t *index, uint32_t *work)
{
    const uint32_t *pair = pairs_of(index);
    for (uint32_t p = 0; p < index[1]; p++) {
        if (work[pair[2 * (size_t)p]] != 0)
            return p;
        work[pair[2 * (size_t)p]] = 1;
    }
    return none;
}

/* How far from its centre a member of this child may be and is surely not closer to another: half the way to the nearest. In a short child the
   members are sooner measured, and with many columns or circles the library measures them all. */
static uint32_t safe_within(struct plain_table t, const uint16_t *const *centre, uint32_t centres, uint32_t own, uint32_t members)
{
    uint32_t safe = MOST_DISTANCE;
    if (members < (t.c <= 4 ? 4 * SHORT_CHILD : SHORT_CHILD) || t.c > FEW_COLUMNS || t.circles != 0)
        return 0;
    for (uint32_t j = 0; j < centres; j++) {
        uint32_t half = j == own ? MOST_DISTANCE : far(t, centre[own], centre[j]) / 2;
        safe = half < safe ? half : safe;
    }
    return safe;
}

/* A row at d from its own centre is closer to another. */
static bool strays(struct plain_table t, const uint16_t *const *centre, uint32_t centres, uint32_t own, const uint16_t *row, uint32_t d)
{
    for (uint32_t j = 0; j < centres; j++) {
        if (j != own && far(t, centre[j], row) < d)
            return true;
    }
    return false;
}

/* Child k of a node with these centres: its members' distances, its reaches and whether a member is closer elsewhere. */
static void check_child(struct plain_table t, const uint32_t *index, uint32_t parent, uint32_t k, const uint16_t *const *centre, uint32_t centres,
                        uint32_t own, struct faults *f)
{
    const uint32_t *v = node_of(index, k), *pair = pairs_of(index);
    uint32_t most = 0, nearest = v[1] > 1 ? UINT32_MAX : 0, safe = safe_within(t, centre, centres, own, v[1]);
    for (uint32_t p = v[0]; p < v[0] + v[1]; p++) {
        const uint16_t *row = row_of(t, pair[2 * (size_t)p]);
        uint32_t d = far(t, centre[own], row);
        most = greater(most, d);
        nearest = p > v[0] && d < nearest ? d : nearest;
        if (v[2] == 0 && pair[2 * (size_t)p + 1] != d && p < f->distance)
            f->distance = p;
        if (d > safe && f->node == none && strays(t, centre, centres, own, row, d)) {
            f->node = parent;
            f->position = p;
        }
    }
    if ((v[3] != most || v[4] != nearest) && k < f->radius)
        f->radius = k;
}

static void check_nodes(struct plain_table t, const uint32_t *index, struct faults *f)
{
    const uint32_t *pair = pairs_of(index);
    const uint16_t *centre[MOST_CENTRES];
    uint32_t m = index[3], nodes = index[5];
    if (nodes == 0)
        return;
    centre[0] = row_of(t, pair[0]);
    check_child(t, index, 0, 0, centre, 1, 0, f);
    for (uint32_t k = 0; k < nodes; k++) {
        const uint32_t *v = node_of(index, k);
        if (v[2] == 0)
            continue;
        for (uint32_t j = 0; j < m; j++)
            centre[j] = row_of(t, pair[2 * (size_t)node_of(index, v[2] + j)[0]]);
        for (uint32_t j = 0; j < m; j++)
            check_child(t, index, k, v[2] + j, centre, m, j, f);
    }
}

struct plain_verdict plain_check(struct plain_table t, const uint32_t *index, uint32_t *work)
{
    struct plain_verdict v = { 9, 0, 0 };
    struct faults f = { none, none, none, none };
    if (!plain_shape(index))
        return v;
    if (plain_off_circle(t)) {
        v.number = 19;
        return v;
    }
    memset(work, 0, 6 * (size_t)t.n * sizeof *work);
    uint32_t again = row_again(index, work);
    memset(work, 0, 6 * (size_t)t.n * sizeof *work);
    check_nodes(t, index, &f);
    v.number = again != none ? 10 : f.distance != none ? 11 : f.radius != none ? 12 : f.node != none ? 13 : 0;
    v.place = v.number == 10 ? again : v.number == 11 ? f.distance : v.number == 12 ? f.radius : v.number == 13 ? f.node : 0;
    v.second = v.number == 13 ? f.position : 0;
    return v;
}
