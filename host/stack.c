/* How much stack each call of the library takes, in bytes: stack
   The call runs on a painted stack of its own, and the lowest byte that is painted over tells. The table is one on which a radius
   search goes down all 25 levels: no call takes more on another. Exit status 1 where a call is refused. */
#define _XOPEN_SOURCE 700
#include <stdio.h>
#include <stdlib.h>
#include <string.h>
#include <ucontext.h>

#include "bourascul.h"

/* Row 0 is the origin, and a row lies 2 or 1 away from it in each direction. Of two centres the second then has a group of its own,
   so that each level has one row fewer than the one above. */
enum { COLUMNS = 16, ROWS = 1 + 2 * COLUMNS, CENTRES = 2, LEAF = 2, WORDS = 12 * ROWS + 8, BYTES = 16 * 512, SET = (ROWS + 31) / 32 };
enum { STACK = 1 << 16, PAINT = 0xa5 };

static uint16_t table[ROWS * COLUMNS], query[COLUMNS];
static uint32_t room[WORDS], back[WORDS], work[6 * ROWS], rows[ROWS], distances[ROWS], words, blocks;
static uint32_t most_rows[WORDS], two_rows[WORDS], no_rows[WORDS], withdrawn[SET];
static bourascul_answer answers[ROWS];
static uint8_t how[ROWS], image[BYTES];
static uint32_t number;

static void nothing(void)
{
    number = 0;
}

static void build(void)
{
    bourascul_built built = bourascul_build(table, ROWS * COLUMNS, COLUMNS, CENTRES, LEAF, 0, 2, room, WORDS, work, 6 * ROWS);
    number = built.number;
    words = built.words;
}

/* The last row goes down all levels, to a leaf at depth 24; the third row splits the leaf that is all of the index of two. */
static void append(void)
{
    bourascul_built deep = bourascul_append(table, ROWS * COLUMNS, COLUMNS, most_rows, WORDS, back, WORDS, work, 6 * ROWS);
    bourascul_built split = bourascul_append(table, 3 * COLUMNS, COLUMNS, two_rows, WORDS, back, WORDS, work, 6 * ROWS);
    number = deep.number != 0 || deep.nodes != 49 || split.number != 0 || split.nodes != 3;
}

/* From two rows all others go in, down to depth 24; and all of them into an index without rows. */
static void append_rows(void)
{
    bourascul_built some = bourascul_append_rows(table, ROWS * COLUMNS, COLUMNS, two_rows, WORDS, back, WORDS, work, 6 * ROWS);
    bourascul_built none = bourascul_append_rows(table, ROWS * COLUMNS, COLUMNS, no_rows, WORDS, back, WORDS, work, 6 * ROWS);
    number = some.number != 0 || none.number != 0 || some.nodes != none.nodes;
}

static void check(void)
{
    number = bourascul_check(table, ROWS * COLUMNS, COLUMNS, room, words, work, 6 * ROWS).number;
}

/* r is the distance of row 0, so that no node whose first it is can be swept or closed. */
static void radius(void)
{
    number = bourascul_radius(table, ROWS * COLUMNS, COLUMNS, room, words, query, COLUMNS, 9, withdrawn, SET, how, ROWS).number;
}

static void nearest(void)
{
    number = bourascul_nearest(table, ROWS * COLUMNS, COLUMNS, room, words, query, COLUMNS, ROWS, withdrawn, SET, rows, ROWS,
                               distances, ROWS, how, ROWS, work, 6 * ROWS).number;
}

static void nearest_answers(void)
{
    number = bourascul_nearest_answers(table, ROWS * COLUMNS, COLUMNS, room, words, query, COLUMNS, ROWS, withdrawn, SET, answers, ROWS,
                                       rows, ROWS, distances, ROWS, how, ROWS, work, 6 * ROWS).number;
}

static void write_image(void)
{
    bourascul_written written = bourascul_write(room, words, image, BYTES);
    number = written.number;
    blocks = written.blocks;
}

static void read_image(void)
{
    number = bourascul_read(image, 512u * blocks, table, ROWS * COLUMNS, COLUMNS, back, WORDS).number;
}

static void strike(void)
{
    number = bourascul_strike(withdrawn, SET, ROWS, ROWS - 1);
}

static void restore(void)
{
    number = bourascul_restore(withdrawn, SET, ROWS, ROWS - 1);
}

static void list(void)
{
    number = bourascul_list(room, words, 0).length == 0;
}

/* How many bytes from the stack's top on the call painted over. The first time, the loader may do so too: it looks for what the call needs
   of the C library. */
static size_t taken(void (*call)(void))
{
    static unsigned char stack[STACK];
    ucontext_t here, there;
    size_t lowest = 0;

    memset(stack, PAINT, STACK);
    getcontext(&there);
    there.uc_stack.ss_sp = stack;
    there.uc_stack.ss_size = STACK;
    there.uc_link = &here;
    makecontext(&there, call, 0);
    swapcontext(&here, &there);
    while (lowest < STACK && stack[lowest] == PAINT)
        lowest++;
    return STACK - lowest;
}

int main(void)
{
    static const struct {
        const char *name;
        void (*call)(void);
    } calls[] = {
        { "bourascul_build", build },
        { "bourascul_append", append },
        { "bourascul_append_rows", append_rows },
        { "bourascul_check", check },
        { "bourascul_radius", radius },
        { "bourascul_nearest", nearest },
        { "bourascul_nearest_answers", nearest_answers },
        { "bourascul_write", write_image },
        { "bourascul_read", read_image },
        { "bourascul_list", list },
        { "bourascul_strike", strike },
        { "bourascul_restore", restore },
    };
    size_t none = taken(nothing);
    int refused = 0;

    for (int i = 0; i < 2 * COLUMNS; i++)
        table[(1 + i) * COLUMNS + i % COLUMNS] = (uint16_t)(i < COLUMNS ? 2 : 1);
    query[0] = 9;
    bourascul_build(table, (ROWS - 1) * COLUMNS, COLUMNS, CENTRES, LEAF, 0, 2, most_rows, WORDS, work, 6 * ROWS);
    bourascul_build(table, 2 * COLUMNS, COLUMNS, CENTRES, LEAF, 0, 2, two_rows, WORDS, work, 6 * ROWS);
    bourascul_build(table, 0, COLUMNS, CENTRES, LEAF, 0, 2, no_rows, WORDS, work, 6 * ROWS);
    puts("| call | bytes of stack |\n|---|---|");
    for (size_t i = 0; i < sizeof calls / sizeof *calls; i++) {
        taken(calls[i].call);
        size_t bytes = taken(calls[i].call);
        printf("| %s | %zu |\n", calls[i].name, bytes - none);
        if (number != 0) {
            printf("%s was refused\n", calls[i].name);
            refused = 1;
        }
    }
    return refused;
}
