/* Tables, queries, indexes and lots, drawn. spoil.c has what makes them wrong. */
#include "samples.h"

#include <stdlib.h>
#include <string.h>

#include "naive.h"

/* ---- Tables and queries ---- */

enum style {
    TIES,     /* values 0 to 3 */
    BITS,     /* 0 and 1 */
    EQUAL,    /* one row again and again */
    NARROW,   /* 0 to 20 */
    WIDE,     /* any 16 bits */
    ENDS,     /* 0 and 65,535 */
    LINE,     /* ascending */
    FEW,      /* copies of a few rows */
    CLUSTERS, /* narrow groups far apart */
    SEAM,     /* around 0 degrees, and around 180 */
    STYLES
};

static uint16_t draw_value(struct draw *d, enum style style, uint32_t row)
{
    switch (style) {
    case TIES: return (uint16_t)draw_below(d, 4);
    case BITS: return (uint16_t)draw_below(d, 2);
    case EQUAL: return 7;
    case NARROW: return (uint16_t)draw_below(d, 21);
    case WIDE: return (uint16_t)draw_below(d, 65536);
    case ENDS: return draw_one_in(d, 2) ? 65535 : 0;
    case LINE: return (uint16_t)(3 * row + draw_below(d, 2));
    case SEAM: return (uint16_t)((3600 + (draw_one_in(d, 4) ? 1800 : 0) - 4 + draw_below(d, 9)) % 3600);
    default: break;
    }
    uint32_t cluster = draw_below(d, 7);
    return (uint16_t)(9000 * cluster + draw_below(d, 30));
}

static bool is_circle(const struct sample *s, uint32_t j)
{
    return (s->circles >> j & 1) != 0;
}

uint16_t on_circle(const struct sample *s, uint32_t j, uint32_t value)
{
    return (uint16_t)(is_circle(s, j) ? (value & 65535) % 3600 : value);
}

void leave_circle(struct draw *d, const struct sample *s, uint16_t *row)
{
    static const uint16_t values[] = { 3600, 3600, 3601, 7199, 7200, 36000, 65535, 3599 };
    uint32_t begin = draw_below(d, s->c);
    for (uint32_t i = 0, j = begin; i < s->c; i++, j = (j + 1) % s->c)
        if (is_circle(s, j)) {
            row[j] = values[draw_below(d, 8)];
            return;
        }
}

/* The table and the row behind it. */
static void fill_table(struct draw *d, struct sample *s, enum style style)
{
    for (uint32_t i = 0; i <= s->n; i++) {
        uint16_t *row = s->table + (size_t)i * s->c;
        bool copied = i > 0 && draw_one_in(d, style == FEW ? 2 : 9);
        const uint16_t *from = s->table + (size_t)(copied ? draw_below(d, i) : 0) * s->c;
        for (uint32_t j = 0; j < s->c; j++)
            row[j] = copied ? from[j] : on_circle(s, j, draw_value(d, style, i));
    }
}

/* m and l at their ends now and then; mostly small, so that few rows make many levels. */
static void draw_centres(struct draw *d, struct sample *s)
{
    static const uint32_t ends[] = { 2, 3, 63, 64 };
    s->m = draw_one_in(d, 6) ? ends[draw_below(d, 4)] : draw_one_in(d, 8) ? draw_between(d, 2, 64) : draw_between(d, 2, 5);
    s->l = s->m + (draw_one_in(d, 3) ? 0 : draw_below(d, 6));
    if (draw_one_in(d, 12))
        s->l = draw_one_in(d, 2) ? 1024 : draw_between(d, s->m, 1024);
}

static void draw_circles(struct draw *d, struct sample *s)
{
    uint32_t all = (1u << s->c) - 1;
    s->circles = draw_one_in(d, 2) ? 0 : draw_one_in(d, 4) ? all : (uint32_t)draw_next(d) & all;
}

void draw_query(struct draw *d, struct sample *s)
{
    bool near = s->n > 0 && !draw_one_in(d, 4);
    const uint16_t *row = s->table + (size_t)(near ? draw_below(d, s->n) : 0) * s->c;
    enum style style = draw_below(d, STYLES);
    uint32_t shift = draw_one_in(d, 3) ? 0 : draw_below(d, 4);
    for (uint32_t j = 0; j < 32; j++)
        s->query[j] = on_circle(s, j, near && j < s->c ? row[j] + draw_below(d, shift + 1) : draw_value(d, style, draw_below(d, SAMPLE_ROWS)));
}

void draw_next_row(struct draw *d, struct sample *s)
{
    uint16_t *row = s->table + (size_t)s->n * s->c;
    bool near = s->n > 0 && !draw_one_in(d, 4);
    const uint16_t *from = s->table + (size_t)(near ? draw_below(d, s->n) : 0) * s->c;
    enum style style = draw_below(d, STYLES);
    uint32_t shift = draw_one_in(d, 3) ? 0 : draw_below(d, 4);
    for (uint32_t j = 0; j < s->c; j++)
        row[j] = on_circle(s, j, near ? from[j] + draw_below(d, shift + 1) : draw_value(d, style, s->n));
}

void draw_sample(struct draw *d, struct sample *s, uint32_t limit)
{
    draw_sample_of(d, s, draw_below(d, limit + 1));
}

void draw_sample_of(struct draw *d, struct sample *s, uint32_t n)
{
    s->n = n;
    s->c = draw_one_in(d, 3) ? draw_between(d, 1, 2) : draw_between(d, 1, 16);
    s->edition = 2;
    draw_centres(d, s);
    draw_circles(d, s);
    fill_table(d, s, draw_one_in(d, 2) ? draw_one_in(d, s->circles == 0 ? 5 : 2) ? SEAM : TIES : (enum style)draw_below(d, STYLES));
    s->index_length = s->image_length = 0;
    draw_query(d, s);
}

void draw_equal_rows(struct draw *d, struct sample *s, uint32_t n)
{
    s->n = n;
    s->c = draw_between(d, 1, 16);
    s->edition = 2;
    s->m = draw_between(d, 2, 4);
    s->l = s->m + draw_below(d, 3);
    draw_circles(d, s);
    fill_table(d, s, EQUAL);
    s->index_length = s->image_length = 0;
    draw_query(d, s);
}

/* ---- Indexes ---- */

size_t node_words(uint32_t edition)
{
    return edition == 2 ? 5 : 4;
}

size_t build_words(size_t n)
{
    return 12 * n + 8;
}

/* Where there is no telling, enough for a build. */
size_t taken_words(const struct sample *s)
{
    bool told = s->index_length >= 8 && s->index[1] <= SAMPLE_ROWS && s->index[5] < 2 * SAMPLE_ROWS;
    return told ? 8 + 5 * (size_t)s->index[5] + 2 * (size_t)s->index[1] : build_words(s->n);
}

static struct naive_table table_of(const struct sample *s)
{
    struct naive_table t = { s->table, (size_t)s->n * s->c, s->c };
    return t;
}

void index_built(struct sample *s)
{
    static uint32_t scratch[6 * SAMPLE_ROWS];
    struct naive_room room = { s->index, SAMPLE_WORDS }, work = { scratch, sizeof scratch / sizeof *scratch };
    s->index_length = s->edition == 1 ? naive_build_old(table_of(s), s->m, s->l, s->circles, s->index)
                                      : naive_build(table_of(s), s->m, s->l, s->circles, s->edition, room, work).one;
}

/* How often something is wrong in an index: 0 for never, k for one time in k. Groups are wrong from a depth on. */
struct wrongs {
    uint32_t group, radius, inner, stored, row, depth;
};

/* A tree under way in number order: each node knows its run, and its depth. */
struct making {
    struct draw *draw;
    struct sample *sample;
    struct wrongs wrongs;
    uint32_t order[SAMPLE_ROWS], depth[2 * SAMPLE_ROWS], nodes;
};

static uint32_t *node_at(struct sample *s, uint32_t k)
{
    return s->index + 8 + node_words(s->edition) * k;
}

static uint32_t apart(const struct sample *s, uint32_t i, uint32_t j)
{
    return naive_distance(s->table + (size_t)i * s->c, s->table + (size_t)j * s->c, s->c, s->circles);
}

static void shuffle(struct draw *d, uint32_t *at, uint32_t count)
{
    for (uint32_t i = count; i > 1; i--) {
        uint32_t j = draw_below(d, i), held = at[j];
        at[j] = at[i - 1];
        at[i - 1] = held;
    }
}

static bool is_wrong(struct draw *d, uint32_t chances)
{
    return chances > 0 && draw_one_in(d, chances);
}

/* A group for a row: that of one of its closest centres, or any. */
static uint32_t draw_group(struct making *k, uint32_t depth, const uint32_t *centre, uint32_t row)
{
    const struct sample *s = k->sample;
    if (depth >= k->wrongs.depth && is_wrong(k->draw, k->wrongs.group))
        return draw_below(k->draw, s->m);
    uint32_t best = draw_below(k->draw, s->m);
    for (uint32_t j = 0, at = best; j < s->m; j++, at = (at + 1) % s->m)
        if (apart(s, centre[at], row) < apart(s, centre[best], row))
            best = at;
    return best;
}

/* Gives node `number` its m children: its first and m - 1 drawn rows are the centres. */
static void split(struct making *k, uint32_t number)
{
    struct sample *s = k->sample;
    uint32_t *run = k->order + node_at(s, number)[0], count = node_at(s, number)[1];
    uint32_t rows[SAMPLE_ROWS], group[SAMPLE_ROWS];
    shuffle(k->draw, run + 1, count - 1);
    memcpy(rows, run, count * sizeof *rows);
    for (uint32_t i = 0; i < count; i++)
        group[i] = i < s->m ? i : draw_group(k, k->depth[number], rows, rows[i]);
    node_at(s, number)[2] = k->nodes;
    for (uint32_t j = 0, at = 0; j < s->m; j++) {
        uint32_t begin = at;
        for (uint32_t i = 0; i < count; i++)
            if (group[i] == j)
                run[at++] = rows[i];
        uint32_t *child = node_at(s, k->nodes);
        child[0] = node_at(s, number)[0] + begin;
        child[1] = at - begin;
        k->depth[k->nodes++] = k->depth[number] + 1;
    }
}

static uint32_t draw_distance(struct draw *d, uint32_t chances, uint32_t right)
{
    if (!is_wrong(d, chances))
        return right;
    return draw_one_in(d, 12) ? draw_below(d, 1048561) : draw_below(d, 2 * right + 3) % 1048561;
}

static void set_reaches(struct making *k, uint32_t number)
{
    struct sample *s = k->sample;
    uint32_t *node = node_at(s, number), most = 0, least = 0;
    for (uint32_t i = 1; i < node[1]; i++) {
        uint32_t far = apart(s, k->order[node[0]], k->order[node[0] + i]);
        most = far > most ? far : most;
        least = i == 1 || far < least ? far : least;
    }
    node[3] = draw_distance(k->draw, k->wrongs.radius, most);
    if (s->edition == 2)
        node[4] = draw_distance(k->draw, k->wrongs.inner, least);
}

static void set_pairs(struct making *k)
{
    struct sample *s = k->sample;
    for (uint32_t v = 0; v < k->nodes; v++) {
        const uint32_t *node = node_at(s, v);
        for (uint32_t p = node[0]; node[2] == 0 && p < node[0] + node[1]; p++) {
            uint32_t *pair = node_at(s, k->nodes) + 2 * (size_t)p;
            uint32_t right = apart(s, k->order[node[0]], k->order[p]);
            pair[0] = k->order[p];
            pair[1] = draw_distance(k->draw, k->wrongs.stored, right);
        }
    }
}

static void make_index(struct draw *d, struct sample *s, struct wrongs wrongs)
{
    static struct making k;
    k.draw = d;
    k.sample = s;
    k.wrongs = wrongs;
    k.nodes = s->n > 0;
    k.depth[0] = 0;
    for (uint32_t i = 0; i < s->n; i++)
        k.order[i] = is_wrong(d, wrongs.row) ? draw_below(d, s->n) : i;
    shuffle(d, k.order, s->n);
    node_at(s, 0)[0] = 0;
    node_at(s, 0)[1] = s->n;
    for (uint32_t v = 0; v < k.nodes; v++) {
        node_at(s, v)[2] = 0;
        if (node_at(s, v)[1] > s->l && k.depth[v] < 24)
            split(&k, v);
    }
    for (uint32_t v = 0; v < k.nodes; v++)
        set_reaches(&k, v);
    set_pairs(&k);
    const uint32_t header[8] = { s->edition, s->n, s->c, s->m, s->l, k.nodes, 1, s->circles };
    memcpy(s->index, header, sizeof header);
    s->index_length = 8 + node_words(s->edition) * k.nodes + 2 * (size_t)s->n;
}

void index_foreign(struct draw *d, struct sample *s)
{
    const struct wrongs none = { 0, 0, 0, 0, 0, 0 };
    make_index(d, s, none);
}

static uint32_t draw_chances(struct draw *d)
{
    return draw_one_in(d, 2) ? 0 : draw_between(d, 1, 16);
}

void index_wild(struct draw *d, struct sample *s)
{
    struct wrongs wrongs = { 0, 0, 0, 0, 0, 0 };
    const struct wrongs groups_alone = { draw_between(d, 1, 16), 0, 0, 0, 0, draw_below(d, 3) };
    const struct wrongs reaches_alone = { 0, draw_chances(d), draw_between(d, 1, 16), 0, 0, 0 };
    wrongs.group = draw_chances(d);
    wrongs.radius = draw_chances(d);
    wrongs.inner = draw_chances(d);
    wrongs.stored = draw_chances(d);
    wrongs.row = draw_one_in(d, 5) ? draw_between(d, 1, 200) : 0;
    /* All else right, or 10 to 12 would hide every 13, and 10 and 11 most of 12; and the root's 13 would hide those below. */
    if (draw_one_in(d, 3))
        wrongs = groups_alone;
    else if (draw_one_in(d, 3))
        wrongs = reaches_alone;
    make_index(d, s, wrongs);
}

void index_any(struct draw *d, struct sample *s)
{
    if (draw_one_in(d, 6))
        index_wild(d, s);
    else if (draw_one_in(d, 2))
        index_foreign(d, s);
    else
        index_built(s);
}

void random_words(struct draw *d, struct sample *s)
{
    uint32_t most = draw_between(d, 1, 12);
    s->index_length = draw_below(d, 400);
    for (size_t i = 0; i < s->index_length; i++)
        s->index[i] = draw_one_in(d, 20) ? (uint32_t)draw_next(d) : draw_below(d, most);
    if (s->index_length < 8 || draw_one_in(d, 2))
        return;
    const uint32_t header[8] = { s->edition, s->n, s->c, s->m, s->l, s->n == 0 ? 0 : draw_between(d, 1, 2 * s->n - 1), 1, s->circles };
    memcpy(s->index, header, sizeof header);
    if (s->n > 0 && s->index_length >= 12) {
        s->index[8] = 0;
        s->index[9] = s->n;
    }
}

/* ---- Withdrawn rows ---- */

static void set_bit(uint32_t *set, uint32_t row)
{
    set[row / 32] |= 1u << row % 32;
}

/* The rows that stand first in a node, so far as the words are an index. */
static void withdraw_firsts(struct sample *s)
{
    if (s->index_length < 8 || s->index[5] >= 2 * SAMPLE_ROWS)
        return;
    size_t width = node_words(s->index[0]), pairs = 8 + width * s->index[5];
    for (uint32_t k = 0; k < s->index[5] && pairs <= s->index_length; k++) {
        uint64_t start = s->index[8 + width * k], at = pairs + 2 * start;
        if (at < s->index_length && s->index[at] < s->n)
            set_bit(s->withdrawn, s->index[at]);
    }
}

void draw_withdrawn(struct draw *d, struct sample *s)
{
    bool firsts = false, turned = draw_one_in(d, 3);
    uint32_t chances = 0;
    memset(s->withdrawn, 0, sizeof s->withdrawn);
    if (draw_one_in(d, 3))
        return;
    switch (draw_below(d, 4)) {
    case 0: break;
    case 1: firsts = true; break;
    case 2: chances = draw_between(d, 2, 4); break;
    default: chances = s->n + 1; break;
    }
    if (firsts)
        withdraw_firsts(s);
    for (uint32_t i = 0; i < s->n; i++) {
        if (chances > 0 && draw_one_in(d, chances))
            set_bit(s->withdrawn, i);
        if (turned)
            s->withdrawn[i / 32] ^= 1u << i % 32;
    }
}

static uint32_t remaining_rows(const struct sample *s)
{
    uint32_t remaining = 0;
    for (uint32_t i = 0; i < s->n; i++)
        remaining += (s->withdrawn[i / 32] >> i % 32 & 1) == 0;
    return remaining;
}

/* ---- Lots ---- */

static uint32_t draw_r(struct draw *d, const struct sample *s)
{
    static const uint32_t ends[] = { 0, 1, 1048560, 1048561, 2097120, UINT32_MAX - 1, UINT32_MAX };
    if (s->n == 0 || draw_one_in(d, 8))
        return ends[draw_below(d, 7)];
    uint32_t at = naive_distance(s->query, s->table + (size_t)draw_below(d, s->n) * s->c, s->c, s->circles);
    return draw_one_in(d, 2) ? at : at + draw_below(d, 3) - (at > 0);
}

static uint32_t draw_w(struct draw *d, const struct sample *s)
{
    uint32_t remaining = remaining_rows(s);
    const uint32_t ends[] = { 1, 2, s->n, s->n + 1, s->n > 1 ? s->n - 1 : 1, UINT32_MAX, 3, remaining + 1, remaining > 0 ? remaining : 1 };
    return draw_one_in(d, 2) ? ends[draw_below(d, 9)] : draw_between(d, 1, s->n < 12 ? s->n + 1 : 12);
}

size_t longer(struct draw *d, size_t asked)
{
    return asked + (draw_one_in(d, 2) ? 0 : draw_below(d, 9));
}

struct lot fair_lot(struct draw *d, struct sample *s)
{
    struct lot lot;
    memset(&lot, 0, sizeof lot);
    lot.table = s->table;
    lot.table_length = (size_t)s->n * s->c;
    lot.fitting = NULL;
    lot.c = s->c;
    lot.m = s->m;
    lot.l = s->l;
    lot.circles = s->circles;
    lot.edition = s->edition;
    lot.index = s->index;
    lot.index_length = s->index_length;
    lot.query = s->query;
    lot.query_length = s->c;
    draw_withdrawn(d, s);
    lot.withdrawn = s->withdrawn;
    lot.withdrawn_length = (s->n + 31) / 32;
    lot.r = draw_r(d, s);
    lot.w = draw_w(d, s);
    lot.node = draw_below(d, s->index_length > 5 && s->index[5] < 2 * SAMPLE_ROWS ? s->index[5] + 2 : 9);
    size_t asked = lot.w < s->n ? lot.w : s->n;
    lot.room = longer(d, build_words(s->n));
    lot.taken = longer(d, taken_words(s));
    lot.work = longer(d, 6 * (size_t)s->n);
    lot.how = longer(d, s->n);
    lot.rows = longer(d, asked);
    lot.distances = longer(d, asked);
    lot.answers = longer(d, asked);
    lot.next = s->c;
    lot.append_room = longer(d, build_words((size_t)s->n + 1));
    lot.append_work = longer(d, 6 * ((size_t)s->n + 1));
    lot.image = s->image;
    lot.image_length = s->image_length;
    return lot;
}
