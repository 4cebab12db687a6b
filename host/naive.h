/* The scope paper (01) with edition 2 (02, R-4 and R-11), circles, withdrawn rows and appended rows once more, in plain
   C: clear rather than fast, and sharing nothing with the library. Each call takes and gives what the library's call of the same name does
   (include/bourascul.h). */
#ifndef HOST_NAIVE_H
#define HOST_NAIVE_H

#include <stdbool.h>
#include <stddef.h>
#include <stdint.h>

/* A call's number, then its two places or counts in the order of the library's struct. */
struct naive_says {
    uint32_t number, one, two;
};

struct naive_answer {
    uint32_t row, distance;
};

struct naive_part {
    uint32_t start, length;
};

/* The table that a call is told of. */
struct naive_table {
    const uint16_t *columns;
    size_t length;
    uint32_t c;
};

struct naive_index {
    const uint32_t *words;
    size_t length;
};

struct naive_query {
    const uint16_t *columns;
    size_t length;
};

/* A set of rows: bit r % 32 of word r / 32 is on for row r. */
struct naive_set {
    const uint32_t *words;
    size_t length;
};

/* A lent room of 32-bit words, and one of bytes. */
struct naive_room {
    uint32_t *words;
    size_t length;
};

struct naive_bytes {
    uint8_t *bytes;
    size_t length;
};

struct naive_records {
    struct naive_answer *records;
    size_t length;
};

/* Bit j of `circles` is on where column j is a circle; the numbers there are below 3,600. */
uint32_t naive_distance(const uint16_t *a, const uint16_t *b, uint32_t c, uint32_t circles);

struct naive_says naive_build(struct naive_table table, uint32_t m, uint32_t l, uint32_t circles, uint32_t edition, struct naive_room room,
                              struct naive_room work);
struct naive_says naive_append(struct naive_table table, struct naive_index index, struct naive_room room, struct naive_room work);
struct naive_says naive_append_rows(struct naive_table table, struct naive_index index, struct naive_room room, struct naive_room work);
struct naive_says naive_check(struct naive_table table, struct naive_index index, struct naive_room work);
struct naive_says naive_radius(struct naive_table table, struct naive_index index, struct naive_query query, uint32_t r, struct naive_set withdrawn,
                               struct naive_bytes how);
struct naive_says naive_nearest(struct naive_table table, struct naive_index index, struct naive_query query, uint32_t w, struct naive_set withdrawn,
                                struct naive_room rows, struct naive_room distances, struct naive_bytes how, struct naive_room work);
struct naive_says naive_nearest_answers(struct naive_table table, struct naive_index index, struct naive_query query, uint32_t w,
                                        struct naive_set withdrawn, struct naive_records answers, struct naive_room rows, struct naive_room distances,
                                        struct naive_bytes how, struct naive_room work);
struct naive_says naive_write(struct naive_index index, struct naive_bytes image);
struct naive_says naive_read(const uint8_t *image, size_t length, struct naive_table table, struct naive_room room);
struct naive_part naive_list(struct naive_index index, uint32_t node);

/* Both give the number alone. */
uint32_t naive_strike(struct naive_room withdrawn, uint32_t n, uint32_t row);
uint32_t naive_restore(struct naive_room withdrawn, uint32_t n, uint32_t row);

bool naive_is_in(struct naive_set set, uint32_t row);

/* For the trials alone. The check word over a block's 127 words. */
uint32_t naive_check_word(uint32_t block, const uint32_t *words);
/* The blocks of a card with these words, whatever they say, and at least one; gives how many. */
size_t naive_card(const uint32_t *words, size_t count, uint8_t *image);
/* The index of edition 1 that old recorders built; nothing is refused, and the room is 10n + 8 words. Gives the words. */
uint32_t naive_build_old(struct naive_table table, uint32_t m, uint32_t l, uint32_t circles, uint32_t *room);

#endif
