/* The library's algorithms once more in plain C, written for speed and proved by nobody: the bench's yardstick. Nothing is tested that a caller
   can get right: rooms are long enough, and but for plain_shape the index is in shape. A table off its circles is found, as the library
   finds it: a build then gives no words, a search finds and measures none. */
#ifndef HOST_PLAIN_H
#define HOST_PLAIN_H

#include <stdbool.h>
#include <stddef.h>
#include <stdint.h>

/* Bit j of `circles` is on where column j is a circle, in the table as in the header of its index. */
struct plain_table {
    const uint16_t *columns;
    uint32_t n, c, circles;
};

struct plain_counts {
    uint32_t found, measured;
};

struct plain_verdict {
    uint32_t number, place, second;
};

/* The bench has the yardstick from each compiler at hand (plain_by.c), with names of its own for each. */
#ifndef PLAIN_CALL
#define PLAIN_CALL
#endif

/* Gives the number of words; work is 6n words, and is zero afterwards. */
PLAIN_CALL uint32_t plain_build(struct plain_table t, uint32_t m, uint32_t l, uint32_t *room, uint32_t *work);
PLAIN_CALL bool plain_shape(const uint32_t *index);
PLAIN_CALL bool plain_off_circle(struct plain_table t);
PLAIN_CALL struct plain_verdict plain_check(struct plain_table t, const uint32_t *index, uint32_t *work);
/* The withdrawn rows are a set of n/32 words, rounded up. */
PLAIN_CALL struct plain_counts plain_radius(struct plain_table t, const uint32_t *index, const uint16_t *query, uint32_t r, const uint32_t *withdrawn,
                                            uint8_t *how);
PLAIN_CALL struct plain_counts plain_nearest(struct plain_table t, const uint32_t *index, const uint16_t *query, uint32_t w,
                                             const uint32_t *withdrawn, uint32_t *rows, uint32_t *distances, uint8_t *how, uint32_t *work);

/* Gives the number of blocks. */
PLAIN_CALL size_t plain_write(const uint32_t *index, uint8_t *image);

/* Gives the number of words, 0 where a check word, the header, the rest after the last word or the shape is wrong or the table is off its circles. As
   the library it looks at the shape on the card, before a word is written. */
PLAIN_CALL size_t plain_read(struct plain_table t, const uint8_t *image, size_t blocks, uint32_t *room);

/* The answers by a scan of every row, where none is withdrawn. */
PLAIN_CALL uint32_t plain_scan_radius(struct plain_table t, const uint16_t *query, uint32_t r, uint8_t *how);
PLAIN_CALL uint32_t plain_scan_nearest(struct plain_table t, const uint16_t *query, uint32_t w, uint32_t *rows, uint32_t *distances);

/* All of them, from one compiler. */
struct plain_calls {
    const char *compiler;
    __typeof__(plain_build) *build;
    __typeof__(plain_check) *check;
    __typeof__(plain_radius) *radius;
    __typeof__(plain_nearest) *nearest;
    __typeof__(plain_write) *write;
    __typeof__(plain_read) *read;
    __typeof__(plain_scan_radius) *scan_radius;
    __typeof__(plain_scan_nearest) *scan_nearest;
};

extern const struct plain_calls plain_first, plain_second;

#endif
