/* Writing and reading an image, of plain.h. Words are copied as they stand: the low byte comes first in an image, as in the memory of an x86-64. */
#include "plain_inner.h"

#include <string.h>

enum {
    HELD = 127, /* index words to a block */
    BLOCK = 512 /* its bytes */
};

static inline size_t words_of(const uint32_t *header)
{
    return 8 + 5 * (size_t)header[5] + 2 * (size_t)header[1];
}

static inline size_t blocks_for(size_t words)
{
    return (words + HELD - 1) / HELD;
}

/* How many index words block b holds, of so many. */
static inline size_t held_by(size_t b, size_t words)
{
    return words - HELD * b < HELD ? words - HELD * b : HELD;
}

/* The check, one word further. */
static inline uint32_t stepped(uint32_t check, uint32_t word)
{
    return (check << 1 | check >> 31) + word;
}

size_t plain_write(const uint32_t *index, uint8_t *image)
{
    size_t words = words_of(index), blocks = blocks_for(words);
    for (size_t b = 0; b < blocks; b++) {
        const uint32_t *from = index + HELD * b;
        uint8_t *block = image + BLOCK * b;
        uint32_t check = (uint32_t)b + 1;
        size_t held = held_by(b, words);
        for (size_t i = 0; i < held; i++)
            check = stepped(check, from[i]);
        for (size_t i = held; i < HELD; i++)
            check = stepped(check, 0);
        memcpy(block, from, 4 * held);
        memset(block + 4 * held, 0, 4 * (HELD - held));
        memcpy(block + 4 * HELD, &check, sizeof check);
    }
    return blocks;
}

static inline uint32_t word_at(const uint8_t *bytes)
{
    uint32_t word;
    memcpy(&word, bytes, sizeof word);
    return word;
}

static bool block_good(const uint8_t *block, size_t b)
{
    uint32_t check = (uint32_t)b + 1;
    for (size_t i = 0; i < HELD; i++)
        check = stepped(check, word_at(block + 4 * i));
    return check == word_at(block + 4 * HELD);
}

/* Index word j, where it stands in the image. */
static inline uint32_t card_word(const uint8_t *image, size_t j)
{
    return word_at(image + 4 * (j + j / HELD));
}

static inline size_t node_at(size_t k)
{
    return 8 + NODE_WORDS * k;
}

static bool card_tiles(const uint8_t *image, size_t child, uint32_t m, uint64_t at, uint64_t end)
{
    for (uint32_t j = 0; j < m; j++) {
        if (card_word(image, node_at(child + j)) != at)
            return false;
        at += card_word(image, node_at(child + j) + 1);
    }
    return at == end;
}

/* The nodes in number order, as plain_shape has them. */
static bool card_tree(const uint8_t *image, const uint32_t *header)
{
    uint32_t n = header[1], m = header[3], l = header[4], nodes = header[5], next = 1, depth = 0, level_end = 1;
    if (nodes > 0 && (card_word(image, node_at(0)) != 0 || card_word(image, node_at(0) + 1) != n))
        return false;
    for (uint32_t k = 0; k < nodes; k++) {
        if (k == level_end) {
            depth++;
            level_end = next;
        }
        size_t v = node_at(k);
        uint32_t count = card_word(image, v + 1), child = card_word(image, v + 2);
        if (k >= next || count == 0 || card_word(image, v + 3) > MOST_DISTANCE || card_word(image, v + 4) > MOST_DISTANCE)
            return false;
        if (count <= l || depth == MOST_DEPTH) {
            if (child != 0)
                return false;
            continue;
        }
        uint64_t start = card_word(image, v);
        if (child != next || nodes - next < m || !card_tiles(image, child, m, start, start + count))
            return false;
        next += m;
    }
    return true;
}

/* The positions, block by block: one whose words stand in two blocks comes by itself. */
static bool card_positions(const uint8_t *image, const uint32_t *header)
{
    uint32_t n = header[1], row = 0, distance = 0;
    size_t base = node_at(header[5]), p = 0;
    while (p < n) {
        row = greater(row, card_word(image, base + 2 * p));
        distance = greater(distance, card_word(image, base + 2 * p + 1));
        p++;
        size_t b = (base + 2 * p) / HELD, stop = p + (HELD * (b + 1) - base - 2 * p) / 2;
        const uint8_t *from = image + 4 * (base + b);
        for (stop = stop < n ? stop : n; p < stop; p++) {
            row = greater(row, word_at(from + 8 * p));
            distance = greater(distance, word_at(from + 8 * p + 4));
        }
    }
    return n == 0 || (row < n && distance <= MOST_DISTANCE);
}

size_t plain_read(struct plain_table t, const uint8_t *image, size_t blocks, uint32_t *room)
{
    uint32_t header[8];
    for (size_t b = 0; b < blocks; b++)
        if (!block_good(image + BLOCK * b, b))
            return 0;
    memcpy(header, image, sizeof header);
    size_t words = words_of(header);
    if (blocks_for(words) != blocks)
        return 0;
    for (size_t i = 4 * held_by(blocks - 1, words); i < 4 * HELD; i++)
        if (image[BLOCK * (blocks - 1) + i] != 0)
            return 0;
    if (!card_tree(image, header) || !card_positions(image, header) || plain_off_circle(t))
        return 0;
    for (size_t b = 0; b < blocks; b++)
        memcpy(room + HELD * b, image + BLOCK * b, 4 * held_by(b, words));
    return words;
}
