/* Indexes and images spoilt in every way we could think of. */
#include <string.h>

#include "naive.h"
#include "samples.h"

/* ---- Indexes ---- */

static uint32_t draw_other(struct draw *d, const struct sample *s, uint32_t word)
{
    const uint32_t ends[] = { 0, 1, 2, s->n, s->n + 1, s->n - 1, 1048560, 1048561, 0x80000000u, UINT32_MAX, word + s->m, word - s->m, s->m, s->l,
                              1u << s->c, (1u << s->c) - 1 };
    switch (draw_below(d, 5)) {
    case 0: return word + 1;
    case 1: return word - 1;
    case 2: return ends[draw_below(d, 16)];
    case 3: return word ^ (1u << draw_below(d, 32));
    default: return s->index[draw_below(d, (uint32_t)s->index_length)];
    }
}

static void swap_parts(uint32_t *a, uint32_t *b, size_t words)
{
    for (size_t i = 0; i < words; i++) {
        uint32_t held = a[i];
        a[i] = b[i];
        b[i] = held;
    }
}

static void change_length(struct draw *d, struct sample *s)
{
    if (draw_one_in(d, 2)) {
        s->index_length -= draw_one_in(d, 2) ? 1 : draw_below(d, (uint32_t)s->index_length + 1);
        return;
    }
    for (uint32_t more = draw_between(d, 1, 20); more > 0 && s->index_length < SAMPLE_WORDS; more--)
        s->index[s->index_length++] = (uint32_t)draw_next(d);
}

/* A run's border moved by one, in both neighbours, so that only deeper rules can notice. */
static void move_border(struct draw *d, struct sample *s)
{
    uint32_t nodes = s->index[5];
    if (nodes < 3)
        return;
    size_t width = node_words(s->index[0]);
    uint32_t *node = s->index + 8 + width * draw_between(d, 1, nodes - 2);
    node[1] += 1;
    node[width] += 1;
    node[width + 1] -= 1;
}

/* One node more, after the last, that no parent has: the last node again. */
static void add_node(struct sample *s)
{
    size_t width = node_words(s->index[0]), nodes = s->index[5];
    uint32_t *end = s->index + 8 + width * nodes;
    if (s->index_length + width > SAMPLE_WORDS)
        return;
    memmove(end + width, end, (s->index_length - 8 - width * nodes) * sizeof *end);
    memcpy(end, end - width, width * sizeof *end);
    s->index[5]++;
    s->index_length += width;
}

/* A node's radius or, in edition 2, more often its inner reach set to something else: by one more or less, to another node's,
   to the node's other reach, or to an end of what is possible. */
static void spoil_reach(struct draw *d, uint32_t *node, const uint32_t *other, size_t width)
{
    static const uint32_t ends[] = { 0, 1, 1048559, 1048560, 1048561, UINT32_MAX };
    size_t at = width == 5 && !draw_one_in(d, 3) ? 4 : 3;
    switch (draw_below(d, 5)) {
    case 0: node[at] += 1; break;
    case 1: node[at] -= 1; break;
    case 2: node[at] = other[at]; break;
    case 3: node[at] = node[width == 5 ? 7 - at : at]; break;
    default: node[at] = ends[draw_below(d, 6)]; break;
    }
}

/* What stands in the index of a node or a pair, spoilt as a whole. Needs rows, and all words. */
static void spoil_records(struct draw *d, struct sample *s)
{
    uint32_t n = s->index[1], nodes = s->index[5];
    size_t width = node_words(s->index[0]);
    uint32_t *node = s->index + 8, *pair = node + width * nodes;
    uint32_t a = draw_below(d, n), b = draw_below(d, n), u = draw_below(d, nodes), v = draw_below(d, nodes);
    switch (draw_below(d, 9)) {
    case 0: swap_parts(node + width * u, node + width * v, width); break;
    case 1: swap_parts(pair + 2 * (size_t)a, pair + 2 * (size_t)b, 2); break;
    case 2: swap_parts(pair + 2 * (size_t)a, pair + 2 * (size_t)b, 1); break;
    case 3: pair[2 * (size_t)a] = pair[2 * (size_t)b]; break;
    case 4: pair[2 * (size_t)a + 1] += draw_one_in(d, 2) ? 1 : UINT32_MAX; break;
    case 5:
    case 6: spoil_reach(d, node + width * u, node + width * v, width); break;
    case 7: add_node(s); break;
    default: move_border(d, s); break;
    }
}

void spoil_index(struct draw *d, struct sample *s)
{
    if (s->index_length == 0)
        return;
    bool whole = s->index_length >= 8 && s->index[1] > 0 && s->index[1] <= SAMPLE_ROWS && s->index[5] > 0 && s->index[5] < 2 * SAMPLE_ROWS
        && s->index_length >= 8 + node_words(s->index[0]) * s->index[5] + 2 * (size_t)s->index[1];
    if (whole && !draw_one_in(d, 3)) {
        spoil_records(d, s);
        return;
    }
    uint32_t length = (uint32_t)s->index_length, at = draw_one_in(d, 4) ? draw_below(d, length < 8 ? length : 8) : draw_below(d, length);
    switch (draw_below(d, 4)) {
    case 0: change_length(d, s); break;
    case 1: swap_parts(s->index + at, s->index + draw_below(d, length), 1); break;
    default: s->index[at] = draw_other(d, s, s->index[at]); break;
    }
}

void wrong_shape(struct draw *d, struct sample *s)
{
    size_t pairs = 8 + 5 * (size_t)s->index[5], node = 8 + 5 * (size_t)draw_below(d, s->index[5]), p = pairs + 2 * (size_t)draw_below(d, s->n);
    switch (draw_below(d, 6)) {
    case 0: s->index[node] += 1; break;
    case 1: s->index[node + 1] += 1; break;
    case 2: s->index[node + 2] += 1; break;
    case 3: s->index[node + 3] = 1048561; break;
    case 4: s->index[node + 4] = 1048561; break;
    default: s->index[p + 1] = 1048561; break;
    }
}

/* ---- Images ---- */

void draw_image(struct sample *s)
{
    s->image_length = 512 * naive_card(s->index, s->index_length, s->image);
}

void seal_block(struct sample *s, size_t block)
{
    uint8_t *bytes = s->image + 512 * block;
    uint32_t words[127];
    for (size_t i = 0; i < 127; i++)
        words[i] = bytes[4 * i] | (uint32_t)bytes[4 * i + 1] << 8 | (uint32_t)bytes[4 * i + 2] << 16 | (uint32_t)bytes[4 * i + 3] << 24;
    uint32_t check = naive_check_word((uint32_t)block, words);
    for (size_t b = 0; b < 4; b++)
        bytes[508 + b] = (uint8_t)(check >> (8 * b));
}

static void swap_blocks(struct draw *d, struct sample *s, size_t blocks)
{
    size_t a = draw_below(d, (uint32_t)blocks), b = draw_below(d, (uint32_t)blocks);
    uint8_t held[512];
    memcpy(held, s->image + 512 * a, 512);
    memmove(s->image + 512 * a, s->image + 512 * b, 512);
    memcpy(s->image + 512 * b, held, 512);
}

/* A header word of the first block changed; where it is sealed again only 16, 17, 8 or 9 can notice. */
static void change_header(struct draw *d, struct sample *s)
{
    uint8_t *word = s->image + 4 * draw_below(d, 8);
    word[0] = (uint8_t)(word[0] + (draw_one_in(d, 2) ? 1 : 255));
    uint8_t other = (uint8_t)draw_next(d);
    if (draw_one_in(d, 4))
        word[draw_below(d, 4)] = other;
}

static void change_blocks(struct draw *d, struct sample *s, size_t blocks)
{
    if (draw_one_in(d, 2) || blocks + 1 > SAMPLE_BLOCKS) {
        s->image_length -= 512;
        return;
    }
    for (size_t i = 0; i < 512; i++)
        s->image[512 * blocks + i] = draw_one_in(d, 2) ? 0 : (uint8_t)draw_next(d);
    s->image_length += 512;
    seal_block(s, blocks);
}

void spoil_image(struct draw *d, struct sample *s)
{
    size_t blocks = s->image_length / 512;
    if (blocks == 0)
        return;
    bool seal = !draw_one_in(d, 3);
    uint8_t change = (uint8_t)draw_between(d, 1, 255);
    size_t block_end = 512 * (size_t)draw_between(d, 1, (uint32_t)blocks);
    switch (draw_below(d, 7)) {
    case 0: swap_blocks(d, s, blocks); break;
    case 1: change_header(d, s); break;
    case 2: change_blocks(d, s, blocks); break;
    case 3: s->image[s->image_length - 5 - draw_below(d, 500)] ^= change; break;
    case 4: s->image[draw_below(d, (uint32_t)s->image_length)] ^= (uint8_t)(change & (0u - change)); break;
    case 5: s->image_length -= draw_below(d, 512); break;
    default: s->image[block_end - 1 - draw_below(d, 4)] ^= 1; break;
    }
    for (size_t b = 0; seal && b < s->image_length / 512; b++)
        seal_block(s, b);
}
