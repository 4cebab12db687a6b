/* Calls that are lent nothing: NULL wherever a length is 0. Exit status 1 where a number is not as it should be. */
#include <stdio.h>

#include "bourascul.h"

static uint32_t room[8], back[8];
static uint8_t image[BOURASCUL_BLOCK_BYTES];
static const uint16_t query[1] = { 7 };
static int calls, wrong;

static void expect(const char *call, uint32_t number, uint32_t wanted)
{
    calls++;
    if (number == wanted) return;
    wrong++;
    printf("%s: %u, not %u\n", call, (unsigned)number, (unsigned)wanted);
}

/* The empty table, with its index of eight words. */
static void taken(void)
{
    expect("build", bourascul_build(NULL, 0, 1, 2, 2, 0, BOURASCUL_EDITION, room, 8, NULL, 0).number, BOURASCUL_DONE);
    expect("append of no row", bourascul_append(NULL, 0, 1, room, 8, back, 8, NULL, 0).number, BOURASCUL_BAD_INDEX);
    expect("append_rows of no row", bourascul_append_rows(NULL, 0, 1, room, 8, back, 8, NULL, 0).number, BOURASCUL_BAD_INDEX);
    expect("check", bourascul_check(NULL, 0, 1, room, 8, NULL, 0).number, BOURASCUL_DONE);
    expect("radius", bourascul_radius(NULL, 0, 1, room, 8, query, 1, 9, NULL, 0, NULL, 0).number, BOURASCUL_DONE);
    expect("nearest", bourascul_nearest(NULL, 0, 1, room, 8, query, 1, 9, NULL, 0, NULL, 0, NULL, 0, NULL, 0, NULL, 0).number, BOURASCUL_DONE);
    expect("nearest_answers",
           bourascul_nearest_answers(NULL, 0, 1, room, 8, query, 1, 9, NULL, 0, NULL, 0, NULL, 0, NULL, 0, NULL, 0, NULL, 0).number, BOURASCUL_DONE);
    expect("write", bourascul_write(room, 8, image, sizeof image).number, BOURASCUL_DONE);
    expect("read", bourascul_read(image, sizeof image, NULL, 0, 1, back, 8).number, BOURASCUL_DONE);
    expect("list", bourascul_list(room, 8, 0).length, 0);
    expect("strike", bourascul_strike(NULL, 0, 0, 0), BOURASCUL_NO_SUCH_ROW);
    expect("restore", bourascul_restore(NULL, 0, 0, 0), BOURASCUL_NO_SUCH_ROW);
}

/* Nothing at all. */
static void refused(void)
{
    expect("build of nothing", bourascul_build(NULL, 0, 1, 2, 2, 0, BOURASCUL_EDITION, NULL, 0, NULL, 0).number, BOURASCUL_ROOM_TOO_SHORT);
    expect("append to nothing", bourascul_append(query, 1, 1, NULL, 0, NULL, 0, NULL, 0).number, BOURASCUL_ROOM_TOO_SHORT);
    expect("append_rows to nothing", bourascul_append_rows(query, 1, 1, NULL, 0, NULL, 0, NULL, 0).number, BOURASCUL_ROOM_TOO_SHORT);
    expect("check of nothing", bourascul_check(NULL, 0, 1, NULL, 0, NULL, 0).number, BOURASCUL_BAD_INDEX);
    expect("radius of nothing", bourascul_radius(NULL, 0, 1, NULL, 0, NULL, 0, 9, NULL, 0, NULL, 0).number, BOURASCUL_BAD_QUERY);
    expect("nearest of nothing", bourascul_nearest(NULL, 0, 1, NULL, 0, NULL, 0, 9, NULL, 0, NULL, 0, NULL, 0, NULL, 0, NULL, 0).number,
           BOURASCUL_BAD_QUERY);
    expect("nearest_answers of nothing",
           bourascul_nearest_answers(NULL, 0, 1, NULL, 0, NULL, 0, 9, NULL, 0, NULL, 0, NULL, 0, NULL, 0, NULL, 0, NULL, 0).number,
           BOURASCUL_BAD_QUERY);
    expect("write of nothing", bourascul_write(NULL, 0, NULL, 0).number, BOURASCUL_BAD_IMAGE_HEADER);
    expect("read of nothing", bourascul_read(NULL, 0, NULL, 0, 1, NULL, 0).number, BOURASCUL_BAD_IMAGE_LENGTH);
    expect("list of nothing", bourascul_list(NULL, 0, 0).length, 0);
    expect("strike of nothing", bourascul_strike(NULL, 0, 1, 0), BOURASCUL_BAD_SET);
    expect("restore of nothing", bourascul_restore(NULL, 0, 1, 0), BOURASCUL_BAD_SET);
}

int main(void)
{
    taken();
    refused();
    printf("%d calls with NULL where a length is 0, %d wrong\n", calls, wrong);
    return wrong != 0;
}
