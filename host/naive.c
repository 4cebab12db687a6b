/* The scope paper (01) with edition 2 and circles (02, R-4, R-11 and R-1) in plain C: numbers given back, index words, shape, listing, image.
   The tree and the searches stand in naive_tree.c and naive_search.c. Every condition is tested by itself, and of several faults the lowest
   number is taken. */
#include "naive_inner.h"

#include <stdlib.h>
#include <string.h>

/* ---- Memory, numbers ---- */

/* A trial that runs out of memory has nothing to say, so it ends. */
void *naive_fresh(size_t count, size_t size)
{
    void *p = calloc(count + 1, size);
    if (p == NULL)
        abort();
    return p;
}

static bool is_circle(uint32_t circles, uint32_t column)
{
    return (circles >> column & 1) != 0;
}

/* The way from a up to b, and the way from b up to a: the one of the two that is shorter. */
static uint32_t shorter_way(uint32_t a, uint32_t b)
{
    uint32_t up = (b + CIRCLE - a) % CIRCLE, down = (a + CIRCLE - b) % CIRCLE;
    return up < down ? up : down;
}

uint32_t naive_distance(const uint16_t *a, const uint16_t *b, uint32_t c, uint32_t circles)
{
    uint32_t sum = 0;
    for (uint32_t j = 0; j < c; j++)
        sum += is_circle(circles, j) ? shorter_way(a[j], b[j]) : apart(a[j], b[j]);
    return sum;
}

uint32_t naive_between(const struct tree *t, uint32_t i, uint32_t j)
{
    const uint16_t *columns = t->table.columns;
    uint32_t c = t->table.c;
    return naive_distance(columns + (size_t)i * c, columns + (size_t)j * c, c, t->circles);
}

/* ---- Numbers given back ---- */

uint32_t naive_lowest(const struct faults *f)
{
    for (uint32_t k = 1; k < NUMBERS; k++)
        if (f->met[k])
            return k;
    return 0;
}

/* Of a table with a fault of its own the number of rows is never asked: 1, 3 and 4 come first. */
size_t naive_rows_of(struct naive_table t)
{
    return t.c == 0 ? 0 : t.length / t.c;
}

struct faults naive_table_faults(struct naive_table t)
{
    struct faults f = { { false } };
    f.met[1] = t.c < 1 || t.c > MOST_COLUMNS;
    f.met[3] = t.c != 0 && t.length % t.c != 0;
    f.met[4] = naive_rows_of(t) > MOST_ROWS;
    return f;
}

bool naive_beyond_columns(uint32_t circles, uint32_t c)
{
    return c < 32 && circles >> c != 0;
}

bool naive_off_circle(const uint16_t *columns, size_t length, uint32_t c, uint32_t circles)
{
    for (size_t row = 0; row + c <= length; row += c)
        for (uint32_t j = 0; j < c; j++)
            if (is_circle(circles, j) && columns[row + j] >= CIRCLE)
                return true;
    return false;
}

void naive_clear_work(struct naive_room work, size_t n)
{
    for (size_t i = 0; i < 6 * n; i++)
        work.words[i] = 0;
}

/* ---- Index words ---- */

size_t naive_node_words(uint32_t edition)
{
    return edition == 2 ? 5 : 4;
}

static const uint32_t *node_words(const uint32_t *w, uint32_t k)
{
    return w + HEADER_WORDS + naive_node_words(w[0]) * k;
}

static uint32_t start_of(const uint32_t *w, uint32_t k) { return node_words(w, k)[0]; }
static uint32_t count_of(const uint32_t *w, uint32_t k) { return node_words(w, k)[1]; }
static uint32_t child_of(const uint32_t *w, uint32_t k) { return node_words(w, k)[2]; }
static uint32_t radius_of(const uint32_t *w, uint32_t k) { return node_words(w, k)[3]; }

size_t naive_pair_place(const uint32_t *w, uint32_t p)
{
    return HEADER_WORDS + naive_node_words(w[0]) * w[5] + 2 * (size_t)p;
}

static uint32_t row_at(const uint32_t *w, uint32_t p) { return w[naive_pair_place(w, p)]; }
static uint32_t stored_at(const uint32_t *w, uint32_t p) { return w[naive_pair_place(w, p) + 1]; }

size_t naive_words_asked(const uint32_t *w)
{
    return HEADER_WORDS + naive_node_words(w[0]) * w[5] + 2 * (size_t)w[1];
}

/* The header's words but its edition. */
static bool fields_possible(const uint32_t *w)
{
    uint32_t n = w[1], c = w[2], m = w[3], l = w[4], nodes = w[5];
    bool nodes_fit = n == 0 ? nodes == 0 : nodes >= 1 && nodes <= 2 * (uint64_t)n - 1;
    return n <= MOST_ROWS && c >= 1 && c <= MOST_COLUMNS && m >= 2 && m <= MOST_CENTRES && l >= m && l <= MOST_LEAF && nodes_fit
        && w[6] == 1 && !naive_beyond_columns(w[7], c);
}

static bool header_possible(const uint32_t *w)
{
    return w[0] == 2 && fields_possible(w);
}

static bool card_possible(const uint32_t *w)
{
    return (w[0] == 1 || w[0] == 2) && fields_possible(w);
}

static bool words_there(struct naive_index x)
{
    return x.length >= HEADER_WORDS && header_possible(x.words) && x.length >= naive_words_asked(x.words);
}

static bool of_table(const uint32_t *w, struct naive_table t)
{
    return w[1] == naive_rows_of(t) && w[2] == t.c;
}

/* ---- Shape ---- */

/* Both reaches of a node, on an old card the radius alone, are at most the greatest distance there is. */
static bool reaches_fit(const uint32_t *w, uint32_t k)
{
    return radius_of(w, k) <= MOST_DISTANCE && (w[0] != 2 || node_words(w, k)[4] <= MOST_DISTANCE);
}

static bool must_be_leaf(const uint32_t *w, uint32_t k, uint32_t depth)
{
    return count_of(w, k) <= w[4] || depth == MOST_DEPTH;
}

/* The m children from number `child` on lie end to end over the run of node k. */
static bool children_tile(const uint32_t *w, uint32_t k, uint32_t child)
{
    uint64_t at = start_of(w, k);
    for (uint32_t j = 0; j < w[3]; j++) {
        if (start_of(w, child + j) != at)
            return false;
        at += count_of(w, child + j);
    }
    return at == (uint64_t)start_of(w, k) + count_of(w, k);
}

/* One node against the rules; `*next` is the number that the next inner node's first child must have. */
static bool node_in_shape(const uint32_t *w, uint32_t k, uint32_t *depth, uint32_t *next)
{
    uint32_t nodes = w[5], m = w[3];
    if (k >= *next || count_of(w, k) == 0 || !reaches_fit(w, k))
        return false;
    if (must_be_leaf(w, k, depth[k]))
        return child_of(w, k) == 0;
    if (child_of(w, k) != *next || nodes - *next < m || !children_tile(w, k, *next))
        return false;
    for (uint32_t j = 0; j < m; j++)
        depth[*next + j] = depth[k] + 1;
    *next += m;
    return true;
}

static bool nodes_in_shape(const uint32_t *w)
{
    uint32_t nodes = w[5], next = 1;
    bool right = nodes == 0 || (start_of(w, 0) == 0 && count_of(w, 0) == w[1]);
    uint32_t *depth = naive_fresh(nodes, sizeof *depth);
    for (uint32_t k = 0; right && k < nodes; k++)
        right = node_in_shape(w, k, depth, &next);
    free(depth);
    return right;
}

static bool in_shape(const uint32_t *w)
{
    for (uint32_t p = 0; p < w[1]; p++)
        if (row_at(w, p) >= w[1] || stored_at(w, p) > MOST_DISTANCE)
            return false;
    return nodes_in_shape(w);
}

void naive_index_faults(struct faults *f, struct naive_index x, struct naive_table t)
{
    f->met[8] = !words_there(x) || !of_table(x.words, t);
    f->met[9] = !f->met[8] && !in_shape(x.words);
}

void naive_circle_fault(struct faults *f, struct naive_index x, struct naive_table t, struct naive_query q)
{
    if (f->met[1] || f->met[8])
        return;
    f->met[19] = naive_off_circle(t.columns, t.length, t.c, x.words[7]) || naive_off_circle(q.columns, q.length, t.c, x.words[7]);
}

/* ---- Listing a node ---- */

struct naive_part naive_list(struct naive_index index, uint32_t node)
{
    struct naive_part part = { 0, 0 };
    if (!words_there(index) || !in_shape(index.words) || node >= index.words[5])
        return part;
    part.start = (uint32_t)naive_pair_place(index.words, start_of(index.words, node));
    part.length = 2 * count_of(index.words, node);
    return part;
}

/* ---- The image ---- */

uint32_t naive_check_word(uint32_t block, const uint32_t *words)
{
    uint32_t check = block + 1;
    for (uint32_t i = 0; i < BLOCK_WORDS; i++)
        check = (check << 1 | check >> 31) + words[i];
    return check;
}

static void put_word(uint8_t *at, uint32_t word)
{
    for (uint32_t b = 0; b < 4; b++)
        at[b] = (uint8_t)(word >> (8 * b));
}

static uint32_t get_word(const uint8_t *at)
{
    return at[0] | (uint32_t)at[1] << 8 | (uint32_t)at[2] << 16 | (uint32_t)at[3] << 24;
}

static size_t blocks_for(size_t words)
{
    return (words + BLOCK_WORDS - 1) / BLOCK_WORDS;
}

size_t naive_card(const uint32_t *words, size_t count, uint8_t *image)
{
    size_t blocks = count == 0 ? 1 : blocks_for(count);
    for (size_t b = 0; b < blocks; b++) {
        uint32_t block[BLOCK_WORDS] = { 0 };
        for (size_t i = 0; i < BLOCK_WORDS && b * BLOCK_WORDS + i < count; i++)
            block[i] = words[b * BLOCK_WORDS + i];
        for (size_t i = 0; i < BLOCK_WORDS; i++)
            put_word(image + b * BLOCK_BYTES + 4 * i, block[i]);
        put_word(image + b * BLOCK_BYTES + 4 * BLOCK_WORDS, naive_check_word((uint32_t)b, block));
    }
    return blocks;
}

struct naive_says naive_write(struct naive_index index, struct naive_bytes image)
{
    if (!words_there(index))
        return says(16, 0, 0);
    size_t asked = naive_words_asked(index.words);
    if (image.length < blocks_for(asked) * BLOCK_BYTES)
        return says(5, 0, 0);
    return says(0, (uint32_t)naive_card(index.words, asked, image.bytes), 0);
}

/* The image's words without the check words; the lowest block whose check is wrong, or the block count, goes to `*wrong`. */
static uint32_t *image_words(const uint8_t *image, size_t blocks, size_t *wrong)
{
    uint32_t *words = naive_fresh(blocks * BLOCK_WORDS, sizeof *words);
    *wrong = blocks;
    for (size_t b = 0; b < blocks; b++) {
        const uint8_t *block = image + b * BLOCK_BYTES;
        for (size_t i = 0; i < BLOCK_WORDS; i++)
            words[b * BLOCK_WORDS + i] = get_word(block + 4 * i);
        if (naive_check_word((uint32_t)b, words + b * BLOCK_WORDS) != get_word(block + 4 * BLOCK_WORDS) && *wrong == blocks)
            *wrong = b;
    }
    return words;
}

/* From the image's words on, each fault after the ones above it. What comes out is of edition 2. */
static struct naive_says read_words(const uint32_t *words, size_t blocks, struct naive_table table, struct naive_room room)
{
    size_t asked = naive_words_asked(words), given = HEADER_WORDS + naive_node_words(2) * words[5] + 2 * (size_t)words[1];
    if (!card_possible(words) || blocks != blocks_for(asked))
        return says(16, 0, 0);
    for (size_t i = asked; i < blocks * BLOCK_WORDS; i++)
        if (words[i] != 0)
            return says(17, 0, 0);
    if (!of_table(words, table))
        return says(8, 0, 0);
    if (!in_shape(words))
        return says(9, 0, 0);
    if (naive_off_circle(table.columns, table.length, table.c, words[7]))
        return says(19, 0, 0);
    if (room.length < given)
        return says(5, 0, 0);
    if (words[0] == 1)
        naive_put_wide(words, table, room.words);
    else
        memcpy(room.words, words, given * sizeof *words);
    return says(0, 0, (uint32_t)given);
}

struct naive_says naive_read(const uint8_t *image, size_t length, struct naive_table table, struct naive_room room)
{
    struct faults f = naive_table_faults(table);
    size_t blocks = length / BLOCK_BYTES, wrong;
    if (naive_lowest(&f) != 0)
        return says(naive_lowest(&f), 0, 0);
    if (length == 0 || length % BLOCK_BYTES != 0)
        return says(14, 0, 0);
    uint32_t *words = image_words(image, blocks, &wrong);
    struct naive_says s = wrong < blocks ? says(15, (uint32_t)wrong, 0) : read_words(words, blocks, table, room);
    free(words);
    return s;
}
