/* A first program: an index over six planter minutes, its check, the two questions, a minute struck, and the index on a card and back.
   It is linked with libbourascul.a (host/archive.sh makes it). */
#include <stdio.h>

#include "bourascul.h"

/* Speed, shaft turns, hopper weight and heading, a row a minute. Minutes 2 and 5 are refills, at 359.5 and at 0.5 degrees: the heading is
   in tenths of a degree, and a circle. */
enum { COLUMNS = 4, ROWS = 6, NUMBERS = ROWS * COLUMNS, CIRCLES = 1 << 3, WANTED = 2 };
static const uint16_t minutes[NUMBERS] = {71, 540, 880, 900,  70, 538, 860, 905,  0, 0, 905, 3595,
                                          72, 541, 990, 2700, 71, 539, 970, 2704, 0, 2, 910, 5};
static const uint16_t *const refill = minutes + 2 * COLUMNS;

/* What the calls are lent: nothing is allocated. */
enum { ROOM = BOURASCUL_ROOM_WORDS(ROWS), WORK = BOURASCUL_WORK_WORDS(ROWS), SET = BOURASCUL_SET_WORDS(ROWS) };
enum { CARD = BOURASCUL_BLOCK_BYTES * BOURASCUL_BLOCKS(ROOM) };
static uint32_t room[ROOM], back[ROOM], work[WORK], rows[WANTED], distances[WANTED];
static uint32_t withdrawn[SET]; /* a bit a row, all off: none is withdrawn */
static uint8_t how[ROWS], card[CARD];

static int refused(const char *call, uint32_t number)
{
    printf("%s: %s\n", call, bourascul_message(number));
    return 1;
}

int main(void)
{
    bourascul_built built = bourascul_build(minutes, NUMBERS, COLUMNS, BOURASCUL_CENTRES, BOURASCUL_LEAF, CIRCLES, BOURASCUL_EDITION,
                                            room, ROOM, work, WORK);
    if (built.number != BOURASCUL_DONE) return refused("build", built.number);
    printf("%u words, %u node\n", (unsigned)built.words, (unsigned)built.nodes);

    /* An index from elsewhere is checked once, before the first search. */
    bourascul_checked checked = bourascul_check(minutes, NUMBERS, COLUMNS, room, built.words, work, WORK);
    if (checked.number != BOURASCUL_DONE) return refused("check", checked.number);

    /* Every minute within 20 of minute 2, itself included. */
    bourascul_within within = bourascul_radius(minutes, NUMBERS, COLUMNS, room, built.words, refill, COLUMNS, 20, withdrawn, SET,
                                               how, ROWS);
    if (within.number != BOURASCUL_DONE) return refused("radius", within.number);
    for (int i = 0; i < ROWS; i++) {
        if (how[i] >= BOURASCUL_IN) printf("minute %d is like minute 2\n", i);
    }

    /* The two minutes nearest to it. */
    bourascul_closest closest = bourascul_nearest(minutes, NUMBERS, COLUMNS, room, built.words, refill, COLUMNS, WANTED,
                                                  withdrawn, SET, rows, WANTED, distances, WANTED, how, ROWS, work, WORK);
    if (closest.number != BOURASCUL_DONE) return refused("nearest", closest.number);
    for (uint32_t i = 0; i < closest.given; i++) printf("minute %u at %u\n", (unsigned)rows[i], (unsigned)distances[i]);

    /* Minute 5's sensor was loose: struck, it is in no answer, and the index stays. */
    uint32_t struck = bourascul_strike(withdrawn, SET, ROWS, 5);
    if (struck != BOURASCUL_DONE) return refused("strike", struck);
    within = bourascul_radius(minutes, NUMBERS, COLUMNS, room, built.words, refill, COLUMNS, 20, withdrawn, SET, how, ROWS);
    if (within.number != BOURASCUL_DONE) return refused("radius", within.number);
    printf("without minute 5, %u is like minute 2\n", (unsigned)within.inside);

    /* The index as an image, which a host stores, and read again over its table. */
    bourascul_written written = bourascul_write(room, built.words, card, CARD);
    if (written.number != BOURASCUL_DONE) return refused("write", written.number);
    bourascul_taken taken = bourascul_read(card, BOURASCUL_BLOCK_BYTES * written.blocks, minutes, NUMBERS, COLUMNS, back, ROOM);
    if (taken.number != BOURASCUL_DONE) return refused("read", taken.number);
    printf("%u block, %u words read\n", (unsigned)written.blocks, (unsigned)taken.words);

    /* A changed byte is found. */
    card[100] ^= 1;
    taken = bourascul_read(card, BOURASCUL_BLOCK_BYTES * written.blocks, minutes, NUMBERS, COLUMNS, back, ROOM);
    printf("block %u: %s\n", (unsigned)taken.place, bourascul_message(taken.number));
    return 0;
}
