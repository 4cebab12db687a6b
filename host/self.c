/* The scope paper's own cases, cases of the inner reach, of circles and of withdrawn rows worked out by hand, old cards, and appends, of one row
   and of several, worked out by another hand: the naive implementation against the numbers printed there, the library against the naive one. */
#include <inttypes.h>
#include <stdio.h>
#include <string.h>

#include "kinds.h"
#include "naive.h"
#include "samples.h"

enum {
    WORDS = 600
};

static const uint16_t five_rows[] = { 0, 1, 10, 11, 20 };
static uint32_t room[WORDS], work[WORDS];
static uint32_t wrong;
static struct trial trial;

static void expect_words(const char *name, const uint32_t *is, const uint32_t *should, size_t count)
{
    for (size_t i = 0; i < count; i++)
        if (is[i] != should[i]) {
            printf("self: %s: word %zu is %" PRIu32 ", should be %" PRIu32 "\n", name, i, is[i], should[i]);
            wrong++;
            return;
        }
}

static void expect_says(const char *name, struct naive_says is, uint32_t number, uint32_t one, uint32_t two)
{
    const uint32_t a[] = { is.number, is.one, is.two }, b[] = { number, one, two };
    expect_words(name, a, b, 3);
}

/* A lot over this table, with rooms for a build; `room` holds its index once `build` ran. */
static struct lot lot_of(const uint16_t *table, size_t length, uint32_t c, uint32_t m, uint32_t l)
{
    size_t n = length / c;
    struct lot lot = { .table = table, .table_length = length, .c = c, .m = m, .l = l, .edition = 2, .index = room, .room = build_words(n),
                       .taken = build_words(n), .work = 6 * n, .how = n, .rows = n, .distances = n, .answers = n, .image_length = 512 };
    return lot;
}

static struct naive_says build(struct lot *lot)
{
    struct naive_table table = { lot->table, lot->table_length, lot->c };
    struct naive_room r = { room, lot->room }, w = { work, lot->work };
    struct naive_says s = naive_build(table, lot->m, lot->l, lot->circles, lot->edition, r, w);
    lot->index_length = s.one;
    try_build(&trial, lot);
    return s;
}

/* Some rows of one column, a circle or not, with m = l = 2; and the set of those withdrawn, which is one word where there are rows. */
struct column {
    const uint16_t *rows;
    uint32_t n, circles, withdrawn;
};

static struct lot built(struct column t)
{
    struct lot lot = lot_of(t.rows, t.n, 1, 2, 2);
    lot.circles = t.circles;
    build(&lot);
    return lot;
}

static void expect_marks(const char *name, const uint8_t *how, const char *marks)
{
    for (size_t i = 0; marks[i] != '\0'; i++) {
        uint32_t is = how[i], should = (uint32_t)(marks[i] - '0');
        expect_words(name, &is, &should, 1);
    }
}

static void radius_case(struct column t, uint16_t query, uint32_t r, const char *marks, uint32_t inside, uint32_t measured)
{
    struct lot lot = built(t);
    uint8_t how[5];
    struct naive_table table = { t.rows, t.n, 1 };
    struct naive_index index = { room, lot.index_length };
    struct naive_query q = { &query, 1 };
    struct naive_bytes bytes = { how, 5 };
    struct naive_set withdrawn = { &t.withdrawn, 1 };
    expect_says("radius, numbers", naive_radius(table, index, q, r, withdrawn, bytes), 0, inside, measured);
    expect_marks("radius, how-bytes", how, marks);
    lot.query = &query;
    lot.query_length = 1;
    lot.withdrawn = &t.withdrawn;
    lot.withdrawn_length = 1;
    lot.r = r;
    try_radius(&trial, &lot);
}

/* What a nearest search must give; distances and marks only where the case prints them. */
struct closest {
    const uint32_t *rows, *distances;
    uint32_t given, measured;
    const char *marks;
};

static void nearest_case(struct column t, uint16_t query, uint32_t w, struct closest should)
{
    struct lot lot = built(t);
    uint8_t how[5];
    uint32_t row[5], distance[5];
    struct naive_table table = { t.rows, t.n, 1 };
    struct naive_index index = { room, lot.index_length };
    struct naive_query q = { &query, 1 };
    struct naive_bytes bytes = { how, 5 };
    struct naive_room r = { row, 5 }, d = { distance, 5 }, k = { work, WORDS };
    struct naive_set withdrawn = { &t.withdrawn, 1 };
    expect_says("nearest, numbers", naive_nearest(table, index, q, w, withdrawn, r, d, bytes, k), 0, should.given, should.measured);
    expect_words("nearest, rows", row, should.rows, should.given);
    if (should.distances != NULL)
        expect_words("nearest, distances", distance, should.distances, should.given);
    if (should.marks != NULL)
        expect_marks("nearest, how-bytes", how, should.marks);
    lot.query = &query;
    lot.query_length = 1;
    lot.withdrawn = &t.withdrawn;
    lot.withdrawn_length = 1;
    lot.w = w;
    try_nearest(&trial, &lot);
    try_nearest_answers(&trial, &lot);
}

/* ---- The five-row table ---- */

static const struct column five = { five_rows, 5, 0, 0 };

/* 01's words, which stand on old cards; and with one word more a node, the inner reach: 1 1 9 1 0. */
static const uint32_t old_words[] = { 1, 5, 1, 2, 2, 5, 1, 0, 0, 5, 1, 20, 0, 3, 3, 10, 3, 2, 0, 9, 0, 2, 0, 1, 2, 1, 0, 0,
                                      0, 0, 1, 1, 2, 0, 4, 0, 3, 9 };
static const uint32_t five_words[] = { 2, 5, 1, 2, 2, 5, 1, 0, 0, 5, 1, 20, 1, 0, 3, 3, 10, 1, 3, 2, 0, 9, 9, 0, 2, 0, 1, 1, 2, 1, 0, 0, 0,
                                       0, 0, 1, 1, 2, 0, 4, 0, 3, 9 };

enum {
    OLD_WORDS = 38,
    FIVE_WORDS = 43
};

static void five_index(void)
{
    static const uint32_t lines[5][4] = { { 0, 5, 1, 20 }, { 0, 3, 3, 10 }, { 3, 2, 0, 9 }, { 0, 2, 0, 1 }, { 2, 1, 0, 0 } };
    static const uint32_t pairs[] = { 0, 0, 1, 1, 2, 0, 4, 0, 3, 9 };
    struct lot lot = lot_of(five_rows, 5, 1, 2, 2);
    expect_says("the index's numbers", build(&lot), 0, FIVE_WORDS, 5);
    expect_words("the index", room, five_words, FIVE_WORDS);
    for (size_t k = 0; k < 5; k++)
        expect_words("a listed node", room + 8 + 5 * k, lines[k], 4);
    expect_words("the listed positions", room + 8 + 5 * 5, pairs, 10);
    try_check(&trial, &lot);
    for (lot.node = 0; lot.node < 6; lot.node++)
        try_list(&trial, &lot);
    try_write(&trial, &lot);
    try_card(&trial, &lot);
}

static void five_searches(void)
{
    static const uint32_t rows[4][5] = { { 2 }, { 2, 3 }, { 1, 0 }, { 2, 3, 1, 0, 4 } }, far[3][2] = { { 1 }, { 1, 2 }, { 4, 5 } };
    radius_case(five, 9, 1, "10301", 1, 3);
    radius_case(five, 0, 20, "32222", 5, 1);
    radius_case(five, 0, 19, "32231", 4, 3);
    radius_case(five, 10, 5, "10331", 2, 4);
    nearest_case(five, 9, 1, (struct closest){ rows[0], far[0], 1, 3, NULL });
    nearest_case(five, 9, 2, (struct closest){ rows[1], far[1], 2, 4, NULL });
    nearest_case(five, 5, 2, (struct closest){ rows[2], far[2], 2, 4, NULL });
    nearest_case(five, 9, 9, (struct closest){ rows[3], NULL, 5, 5, NULL });
}

/* ---- Old cards ---- */

/* One block with these words is read over the first `rows` of the five rows, with so many words of room. */
static struct naive_says read_card(const uint32_t *words, size_t count, size_t rows, size_t taken)
{
    uint8_t image[512];
    struct naive_table table = { five_rows, rows, 1 };
    struct naive_room r = { room, taken };
    struct lot lot = lot_of(five_rows, rows, 1, 2, 2);
    lot.index = words;
    lot.index_length = count;
    lot.taken = taken;
    try_card(&trial, &lot);
    return naive_read(image, 512 * naive_card(words, count, image), table, r);
}

/* 01's index and 01's empty one as cards: what comes out, 5 by the words that come out, and the order of 8, 9 and 5. */
static void old_cards(void)
{
    static const uint32_t old_empty[] = { 1, 0, 1, 2, 2, 0, 1, 0 }, empty[] = { 2, 0, 1, 2, 2, 0, 1, 0 };
    struct naive_table table = { five_rows, 5, 1 };
    uint32_t spoilt[FIVE_WORDS];
    expect_words("the build of edition 1, how many words", (const uint32_t[]){ naive_build_old(table, 2, 2, 0, room) },
                 (const uint32_t[]){ OLD_WORDS }, 1);
    expect_words("the build of edition 1", room, old_words, OLD_WORDS);
    expect_says("an old card", read_card(old_words, OLD_WORDS, 5, FIVE_WORDS), 0, 0, FIVE_WORDS);
    expect_words("an old card's words", room, five_words, FIVE_WORDS);
    expect_says("a new card", read_card(five_words, FIVE_WORDS, 5, FIVE_WORDS), 0, 0, FIVE_WORDS);
    expect_words("a new card's words", room, five_words, FIVE_WORDS);
    expect_says("an old card of no rows", read_card(old_empty, 8, 0, 8), 0, 0, 8);
    expect_words("an old card of no rows, words", room, empty, 8);
    expect_says("an old card, a word of room too few", read_card(old_words, OLD_WORDS, 5, FIVE_WORDS - 1), 5, 0, 0);
    expect_says("a new card, a word of room too few", read_card(five_words, FIVE_WORDS, 5, FIVE_WORDS - 1), 5, 0, 0);
    expect_says("an old card over other rows, no room", read_card(old_words, OLD_WORDS, 4, 0), 8, 0, 0);
    memcpy(spoilt, old_words, sizeof old_words);
    spoilt[11] = 1048561;
    expect_says("an old card with a wrong shape, no room", read_card(spoilt, OLD_WORDS, 5, 0), 9, 0, 0);
    expect_says("the same over other rows", read_card(spoilt, OLD_WORDS, 4, 0), 8, 0, 0);
    memcpy(spoilt, five_words, sizeof five_words);
    spoilt[12] = 1048561;
    expect_says("a new card with a wrong shape, no room", read_card(spoilt, FIVE_WORDS, 5, 0), 9, 0, 0);
    for (spoilt[0] = 0; spoilt[0] < 5; spoilt[0] += 3)
        expect_says("a card of another edition", read_card(spoilt, FIVE_WORDS, 5, 0), 16, 0, 0);
}

/* 01's own index in memory: no call takes it any more. */
static void old_index(void)
{
    static const uint16_t query[] = { 9 };
    struct naive_table table = { five_rows, 5, 1 };
    struct naive_index index = { old_words, OLD_WORDS };
    struct naive_room w = { work, WORDS };
    uint8_t image[512];
    struct naive_bytes bytes = { image, 512 };
    struct lot lot = lot_of(five_rows, 5, 1, 2, 2);
    lot.edition = 1;
    expect_says("a build in edition 1", build(&lot), 2, 0, 0);
    lot.index = old_words;
    lot.index_length = OLD_WORDS;
    lot.query = query;
    lot.query_length = 1;
    lot.w = 1;
    expect_says("edition 1 checked", naive_check(table, index, w), 8, 0, 0);
    expect_says("edition 1 written", naive_write(index, bytes), 16, 0, 0);
    expect_words("edition 1 listed", (const uint32_t[]){ naive_list(index, 0).length }, (const uint32_t[]){ 0 }, 1);
    try_check(&trial, &lot);
    try_searches(&trial, &lot);
    try_list(&trial, &lot);
    try_write(&trial, &lot);
}

/* ---- The inner reach ---- */

/* A wrong inner reach of each node: too great, too small, that of a first that counts as another member. */
static void wrong_inner_reaches(void)
{
    struct lot lot = built(five);
    struct naive_table table = { five_rows, 5, 1 };
    struct naive_index index = { room, lot.index_length };
    struct naive_room w = { work, WORDS };
    for (uint32_t node = 0; node < 5; node++) {
        uint32_t *word = room + 8 + 5 * node + 4, right = *word;
        const uint32_t others[] = { right + 1, right == 0 ? 7 : right - 1, right == 0 ? 1048560 : 0 };
        for (size_t i = 0; i < 3; i++) {
            *word = others[i];
            expect_says("a wrong inner reach", naive_check(table, index, w), 12, node, 0);
            try_check(&trial, &lot);
        }
        *word = right;
    }
    room[12] = 1048561;
    expect_says("an inner reach above every distance", naive_check(table, index, w), 9, 0, 0);
    try_check(&trial, &lot);
}

/* A node that the inner reach alone closes; and the root, whose own reach closes nothing. */
static void closed_by_the_middle(void)
{
    static const uint16_t gap[] = { 4, 2, 2, 8 }, ring[] = { 7, 4, 4, 1 }, line[] = { 0, 10, 20 };
    static const uint32_t zero[] = { 0 };
    const struct column gaps = { gap, 4, 0, 0 }, rings = { ring, 4, 0, 0 }, lines = { line, 3, 0, 0 };
    radius_case(gaps, 5, 0, "1001", 0, 2);
    nearest_case(rings, 7, 1, (struct closest){ zero, zero, 1, 2, "3001" });
    nearest_case(lines, 0, 1, (struct closest){ zero, zero, 1, 2, "301" });
    /* The closed node's first is in, by its own distance. */
    radius_case(lines, 1, 1, "301", 1, 2);
}

/* ---- Circles ---- */

/* Rows on both sides of the seam and one opposite: 0 is 5 from the first two, 10 from the last. */
static void across_the_seam(void)
{
    static const uint16_t rows[] = { 3595, 5, 1800, 3590 };
    static const uint32_t words[] = { 2, 4, 1, 2, 2, 5, 1, 1, 0, 4, 1, 1795, 5, 0, 3, 3, 10, 5, 3, 1, 0, 0, 0, 0, 2, 0, 5, 5, 2, 1, 0, 0, 0,
                                      0, 0, 3, 5, 1, 0, 2, 0 };
    static const uint32_t near[] = { 0, 1 }, far[] = { 5, 5 }, nearest[] = { 3 }, ten[] = { 10 };
    const struct column round = { rows, 4, 1, 0 }, plain = { rows, 4, 0, 0 };
    struct lot lot = built(round);
    expect_words("rows on a circle", room, words, 41);
    try_check(&trial, &lot);
    radius_case(round, 0, 5, "3311", 2, 4);
    nearest_case(round, 0, 2, (struct closest){ near, far, 2, 4, "3311" });
    /* The same rows as plain numbers: only the second is near 0, in a group of its own. */
    radius_case(plain, 0, 5, "1300", 1, 2);
    nearest_case(round, 3580, 1, (struct closest){ nearest, ten, 1, 4, NULL });
}

/* 3,600 and more in a build's table, behind 5; sets beyond the columns. */
static void built_off_the_circle(void)
{
    static const uint16_t full[] = { 3600 }, pair[] = { 0, 3600, 1, 3599 };
    static const uint32_t numbers[] = { 0, 0, 19, 19, 2 };
    struct lot lot = lot_of(full, 1, 1, 2, 2);
    lot.circles = 1;
    expect_says("3,600 on a circle", build(&lot), 19, 0, 0);
    lot.work = 5;
    expect_says("3,600 on a circle, a word of workspace too few", build(&lot), 5, 0, 0);
    lot = lot_of(full, 1, 1, 2, 2);
    lot.circles = 2;
    expect_says("a circle beyond the columns", build(&lot), 2, 0, 0);
    lot = lot_of(pair, 4, 2, 2, 2);
    for (lot.circles = 0; lot.circles < 5; lot.circles++)
        expect_words("each set of two columns", (const uint32_t[]){ build(&lot).number }, numbers + lot.circles, 1);
}

/* 19 behind 9, before 10, and with the workspace as it was. */
static void checked_off_the_circle(void)
{
    static const uint16_t rows[] = { 0, 9, 20 }, other[] = { 0, 9, 3600 };
    struct naive_room w = { work, WORDS };
    struct lot lot = built((struct column){ rows, 3, 1, 0 });
    struct naive_table table = { other, 3, 1 };
    struct naive_index index = { room, lot.index_length };
    lot.table = other;
    room[8 + 5 * 3 + 2] = room[8 + 5 * 3];
    work[0] = 7;
    expect_says("19 before 10", naive_check(table, index, w), 19, 0, 0);
    expect_words("19 leaves the workspace", work, (const uint32_t[]){ 7 }, 1);
    try_check(&trial, &lot);
    room[8] = 1;
    expect_says("9 before 19", naive_check(table, index, w), 9, 0, 0);
    try_check(&trial, &lot);
}

/* A query off the circle; and a header whose circle is beyond the columns, in memory and on a card. */
static void asked_off_the_circle(void)
{
    static const uint16_t rows[] = { 0, 9, 20 }, query[] = { 3600 };
    static const uint32_t none = 0;
    uint8_t how[3];
    struct lot lot = built((struct column){ rows, 3, 1, 0 });
    struct naive_table table = { rows, 3, 1 };
    struct naive_index index = { room, lot.index_length };
    struct naive_query asked = { query, 1 };
    struct naive_set withdrawn = { &none, 1 };
    expect_says("a query off the circle", naive_radius(table, index, asked, 9, withdrawn, (struct naive_bytes){ how, 3 }), 19, 0, 0);
    lot.query = query;
    lot.query_length = 1;
    lot.withdrawn = &none;
    lot.withdrawn_length = 1;
    lot.w = 1;
    try_searches(&trial, &lot);
    room[7] = 2;
    expect_says("a header's circle beyond the columns", naive_check(table, index, (struct naive_room){ work, WORDS }), 8, 0, 0);
    try_check(&trial, &lot);
    try_write(&trial, &lot);
    try_card(&trial, &lot);
}

/* ---- Withdrawn rows ---- */

/* The five rows with one of them struck, or all: the plan's cases, from another hand. */
static void withdrawn_rows(void)
{
    static const uint32_t rows[3][4] = { { 3 }, { 3, 1, 0, 4 }, { 1, 2 } }, far[3][4] = { { 2 }, { 2, 8, 9, 11 }, { 4, 5 } };
    const struct column ten = { five_rows, 5, 0, 4 }, nought = { five_rows, 5, 0, 1 }, all = { five_rows, 5, 0, 31 };
    radius_case(ten, 9, 1, "10101", 0, 3);
    radius_case(ten, 0, 20, "32022", 4, 1);
    radius_case(all, 0, 20, "10000", 0, 1);
    nearest_case(ten, 9, 1, (struct closest){ rows[0], far[0], 1, 4, "10131" });
    nearest_case(ten, 9, 9, (struct closest){ rows[1], far[1], 4, 5, "33133" });
    nearest_case(nought, 5, 2, (struct closest){ rows[2], far[2], 2, 4, "13301" });
    nearest_case(all, 9, 1, (struct closest){ rows[0], far[0], 0, 5, "11111" });
}

/* Sets of other lengths than the rows', and a bit that no row has; 20 behind 19. */
static void bad_sets(void)
{
    static const uint16_t query[] = { 9 }, off[] = { 3600 };
    static const uint32_t sets[3][2] = { { 0, 0 }, { 0, 0 }, { 32, 0 } };
    static const size_t lengths[] = { 0, 2, 1 };
    uint8_t how[5];
    struct naive_bytes bytes = { how, 5 };
    struct lot lot = built((struct column){ five_rows, 5, 1, 0 });
    struct naive_table table = { five_rows, 5, 1 };
    struct naive_index index = { room, lot.index_length };
    lot.query_length = 1;
    lot.w = 1;
    for (size_t i = 0; i < 3; i++) {
        struct naive_set set = { sets[i], lengths[i] };
        expect_says("a bad set", naive_radius(table, index, (struct naive_query){ query, 1 }, 9, set, bytes), 20, 0, 0);
        expect_says("a bad set, and a query off the circle", naive_radius(table, index, (struct naive_query){ off, 1 }, 9, set, bytes), 19, 0, 0);
        lot.withdrawn = sets[i];
        lot.withdrawn_length = lengths[i];
        lot.query = query;
        try_searches(&trial, &lot);
        lot.query = off;
        try_searches(&trial, &lot);
    }
}

/* Two rows in a leaf, row 0 at both positions and withdrawn: row 1 remains, but stands nowhere, so that none is given. */
static void withdrawn_twice(void)
{
    static const uint16_t rows[] = { 3, 4 }, query[] = { 9 };
    static const uint32_t first = 1;
    struct lot lot = built((struct column){ rows, 2, 0, 0 });
    room[8 + 5 + 2] = 0;
    lot.query = query;
    lot.query_length = 1;
    lot.withdrawn = &first;
    lot.withdrawn_length = 1;
    for (lot.w = 1; lot.w < 4; lot.w++)
        try_searches(&trial, &lot);
}

/* ---- Equal rows ---- */

static void equal_rows(uint32_t n, uint32_t nodes, uint32_t deepest)
{
    uint16_t table[64];
    for (size_t i = 0; i < 64; i++)
        table[i] = 7;
    struct lot lot = lot_of(table, n, 1, 2, 2);
    struct naive_says s = build(&lot);
    expect_says("equal rows, numbers", s, 0, 8 + 5 * nodes + 2 * n, nodes);
    /* The last two nodes are the deepest level; the first of them goes on from the first of all. */
    expect_words("equal rows, deepest leaf", room + 8 + 5 * (size_t)(nodes - 2) + 1, &deepest, 1);
    try_check(&trial, &lot);
}

static void four_sevens(void)
{
    static const uint32_t order[] = { 0, 3, 2, 1 };
    equal_rows(4, 5, 2);
    for (uint32_t p = 0; p < 4; p++)
        expect_words("7 7 7 7, order", room + 8 + 5 * 5 + 2 * p, order + p, 1);
}

/* ---- The image ---- */

static uint32_t check_of(const uint8_t *block)
{
    return block[508] | (uint32_t)block[509] << 8 | (uint32_t)block[510] << 16 | (uint32_t)block[511] << 24;
}

/* The empty table's check word is printed in 02, and in 01 for an old card. */
static void images(void)
{
    static const uint32_t zero[127], empty[] = { 2, 0, 1, 2, 2, 0, 1, 0 }, old_empty[] = { 1, 0, 1, 2, 2, 0, 1, 0 };
    const uint32_t checks[] = { naive_check_word(0, zero), naive_check_word(1, zero) }, should[] = { 2147483648u, 1 };
    expect_words("check of zero words", checks, should, 2);
    uint8_t image[512], old[512];
    struct lot lot = lot_of(five_rows, 0, 1, 2, 2);
    expect_says("the empty table", build(&lot), 0, 8, 0);
    expect_words("the empty table's words", room, empty, 8);
    struct naive_index index = { room, 8 };
    struct naive_bytes bytes = { image, 512 };
    expect_says("the empty table's image", naive_write(index, bytes), 0, 1, 0);
    naive_card(old_empty, 8, old);
    const uint32_t empties[] = { check_of(image), check_of(old) }, printed[] = { 687865857u, 3909091328u };
    expect_words("the empty table's check", empties, printed, 2);
    try_write(&trial, &lot);
    lot.image = image;
    try_read(&trial, &lot);
}

/* ---- Limits ---- */

static void limits(void)
{
    static const uint16_t table[17];
    struct lot lot = lot_of(table, 16, 16, 2, 2);
    expect_says("16 columns", build(&lot), 0, 15, 1);
    lot = lot_of(table, 17, 17, 2, 2);
    expect_says("17 columns", build(&lot), 1, 0, 0);
    lot = lot_of(table, 3, 1, 3, 3);
    expect_says("l = m", build(&lot), 0, 19, 1);
    lot = lot_of(table, 3, 1, 3, 2);
    expect_says("l = m - 1", build(&lot), 2, 0, 0);
    lot = lot_of(table, 3, 1, 2, 2);
    lot.room--;
    expect_says("a room one word short", build(&lot), 5, 0, 0);
    for (uint32_t edition = 0; edition < 4; edition++) {
        lot = lot_of(table, 3, 1, 2, 2);
        lot.edition = edition;
        expect_words("each edition", (const uint32_t[]){ build(&lot).number }, (const uint32_t[]){ edition == 2 ? 0 : 2 }, 1);
    }
}

/* ---- Appends ---- */

/* The last row is new to the index of the others: the build's with m = l = 2, or these words. */
struct append_case {
    uint32_t n;
    uint16_t rows[7];
    uint32_t before[21], words[67];
};

/* The plan's four (five rows with 6, 12 and 0, and the first row of all); ties, radii that grow, equal rows, leaves of one row, rows in no
   order; words that no build gives: leaves out of order that stay and are split, a row twice, wrong distances and reaches. */
static const struct append_case append_list[] = {
    { 6, { 0, 1, 10, 11, 20, 6 }, { 0 },
      { 2, 6, 1, 2, 2, 5, 1, 0, 0, 6, 1, 20, 1, 0, 4, 3, 10, 1, 4, 2, 0, 9, 9, 0, 2, 0, 1, 1, 2, 2, 0, 4, 4, 0, 0, 1, 1, 2, 0, 5, 4, 4, 0, 3, 9 } },
    { 6, { 0, 1, 10, 11, 20, 12 }, { 0 },
      { 2, 6, 1, 2, 2, 7, 1, 0, 0, 6, 1, 20, 1, 0, 3, 3, 10, 1, 3, 3, 5, 9, 8, 0, 2, 0, 1, 1, 2, 1, 0, 0, 0, 3, 1, 0, 0, 0, 4, 2, 0, 1, 1,
        0, 0, 1, 1, 2, 0, 4, 0, 3, 0, 5, 1 } },
    { 6, { 0, 1, 10, 11, 20, 0 }, { 0 },
      { 2, 6, 1, 2, 2, 7, 1, 0, 0, 6, 1, 20, 0, 0, 4, 3, 10, 0, 4, 2, 0, 9, 9, 0, 3, 5, 1, 0, 3, 1, 0, 0, 0, 0, 2, 0, 0, 0, 2, 1, 0, 0, 0,
        0, 0, 5, 0, 1, 0, 2, 0, 4, 0, 3, 9 } },
    { 1, { 4 }, { 0 },
      { 2, 1, 1, 2, 2, 1, 1, 0, 0, 1, 0, 0, 0, 0, 0 } },
    { 6, { 0, 1, 10, 11, 20, 10 }, { 0 },
      { 2, 6, 1, 2, 2, 5, 1, 0, 0, 6, 1, 20, 1, 0, 4, 3, 10, 1, 4, 2, 0, 9, 9, 0, 2, 0, 1, 1, 2, 2, 0, 0, 0, 0, 0, 1, 1, 2, 0, 5, 0, 4, 0, 3, 9 } },
    { 6, { 0, 1, 10, 11, 20, 25 }, { 0 },
      { 2, 6, 1, 2, 2, 7, 1, 0, 0, 6, 1, 25, 1, 0, 3, 3, 10, 1, 3, 3, 5, 9, 5, 0, 2, 0, 1, 1, 2, 1, 0, 0, 0, 3, 2, 0, 5, 5, 5, 1, 0, 0, 0,
        0, 0, 1, 1, 2, 0, 4, 0, 5, 5, 3, 0 } },
    { 5, { 7, 7, 7, 7, 6 }, { 0 },
      { 2, 5, 1, 2, 2, 7, 1, 0, 0, 5, 1, 1, 0, 0, 4, 3, 1, 0, 4, 1, 0, 0, 0, 0, 3, 5, 1, 0, 3, 1, 0, 0, 0, 0, 2, 0, 0, 0, 2, 1, 0, 0, 0,
        0, 0, 3, 0, 4, 0, 2, 0, 1, 0 } },
    { 5, { 7, 7, 7, 7, 7 }, { 0 },
      { 2, 5, 1, 2, 2, 7, 1, 0, 0, 5, 1, 0, 0, 0, 4, 3, 0, 0, 4, 1, 0, 0, 0, 0, 3, 5, 0, 0, 3, 1, 0, 0, 0, 0, 2, 0, 0, 0, 2, 1, 0, 0, 0,
        0, 0, 4, 0, 3, 0, 2, 0, 1, 0 } },
    { 2, { 5, 6 }, { 0 },
      { 2, 2, 1, 2, 2, 1, 1, 0, 0, 2, 0, 1, 1, 0, 0, 1, 1 } },
    { 3, { 0, 10, 0 }, { 0 },
      { 2, 3, 1, 2, 2, 3, 1, 0, 0, 3, 1, 10, 0, 0, 2, 0, 0, 0, 2, 1, 0, 0, 0, 0, 0, 2, 0, 1, 0 } },
    { 3, { 0, 10, 25 }, { 0 },
      { 2, 3, 1, 2, 2, 3, 1, 0, 0, 3, 1, 25, 10, 0, 2, 0, 10, 10, 2, 1, 0, 0, 0, 0, 0, 1, 10, 2, 0 } },
    { 7, { 3, 9, 4, 1, 7, 2, 6 }, { 0 },
      { 2, 7, 1, 2, 2, 7, 1, 0, 0, 7, 1, 6, 1, 0, 5, 3, 3, 1, 5, 2, 0, 2, 2, 0, 4, 5, 3, 1, 4, 1, 0, 0, 0, 0, 2, 0, 1, 1, 2, 2, 0, 2, 2,
        0, 0, 5, 1, 2, 0, 6, 2, 3, 0, 1, 0, 4, 2 } },
    { 7, { 3, 9, 4, 1, 7, 2, 7 }, { 0 },
      { 2, 7, 1, 2, 2, 9, 1, 0, 0, 7, 1, 6, 1, 0, 4, 3, 2, 1, 4, 3, 5, 2, 2, 0, 3, 7, 1, 1, 3, 1, 0, 0, 0, 4, 1, 0, 0, 0, 5, 2, 0, 0, 0,
        0, 2, 0, 1, 1, 2, 1, 0, 0, 0, 0, 0, 5, 1, 2, 0, 3, 0, 1, 0, 4, 0, 6, 0 } },
    { 7, { 3, 9, 4, 1, 7, 2, 0 }, { 0 },
      { 2, 7, 1, 2, 2, 7, 1, 0, 0, 7, 1, 6, 1, 0, 5, 3, 3, 1, 5, 2, 0, 2, 2, 0, 3, 5, 1, 1, 3, 2, 0, 1, 1, 0, 2, 0, 1, 1, 2, 1, 0, 0, 0,
        0, 0, 5, 1, 2, 0, 3, 0, 6, 1, 1, 0, 4, 2 } },
    { 7, { 3, 9, 4, 1, 7, 2, 25 }, { 0 },
      { 2, 7, 1, 2, 2, 9, 1, 0, 0, 7, 1, 22, 1, 0, 4, 3, 2, 1, 4, 3, 5, 16, 2, 0, 3, 7, 1, 1, 3, 1, 0, 0, 0, 4, 2, 0, 2, 2, 6, 1, 0, 0, 0,
        0, 2, 0, 1, 1, 2, 1, 0, 0, 0, 0, 0, 5, 1, 2, 0, 3, 0, 1, 0, 4, 2, 6, 0 } },
    { 4, { 5, 9, 1, 6 }, { 2, 3, 1, 2, 4, 1, 1, 0, 0, 3, 0, 4, 4, 0, 0, 2, 4, 1, 4 },
      { 2, 4, 1, 2, 4, 1, 1, 0, 0, 4, 0, 4, 1, 0, 0, 2, 4, 1, 4, 3, 1 } },
    { 5, { 5, 9, 6, 4, 5 }, { 2, 4, 1, 2, 4, 1, 1, 0, 0, 4, 0, 4, 1, 0, 0, 3, 1, 2, 1, 1, 4 },
      { 2, 5, 1, 2, 4, 3, 1, 0, 0, 5, 1, 4, 0, 0, 4, 0, 1, 0, 4, 1, 0, 0, 0, 0, 0, 2, 1, 3, 1, 4, 0, 1, 0 } },
    { 3, { 0, 5, 9 }, { 2, 2, 1, 2, 2, 1, 1, 0, 0, 2, 0, 3, 2, 0, 0, 0, 7 },
      { 2, 3, 1, 2, 2, 1, 1, 0, 0, 3, 0, 9, 2, 0, 0, 0, 0, 2, 9 } },
    { 3, { 0, 10, 6 }, { 2, 2, 1, 2, 2, 1, 1, 0, 0, 2, 0, 50, 3, 0, 4, 1, 1 },
      { 2, 3, 1, 2, 2, 3, 1, 0, 0, 3, 1, 50, 3, 0, 1, 0, 0, 0, 1, 2, 0, 4, 4, 0, 0, 1, 0, 2, 4 } },
};

/* The rows from `had` on are new to the index of the others: the build's with m = l = 2, or these words. */
struct night_case {
    uint32_t had, n;
    uint16_t rows[9];
    uint32_t before[21], words[71];
};

/* Rows for several leaves; rows for one, which is split between them; from none on; words that no build gives. */
static const struct night_case night_list[] = {
    { 5, 8, { 0, 1, 10, 11, 20, 6, 12, 0 }, { 0 },
      { 2, 8, 1, 2, 2, 9, 1, 0, 0, 8, 1, 20, 0, 0, 5, 3, 10, 0, 5, 3, 5, 9, 8, 0, 3, 7, 1, 0, 3, 2, 0, 4, 4, 5, 1, 0, 0, 0, 6, 2, 0, 1, 1, 0,
        2, 0, 0, 0, 2, 1, 0, 0, 0, 0, 0, 7, 0, 1, 0, 2, 0, 5, 4, 4, 0, 3, 0, 6, 1 } },
    { 5, 8, { 0, 1, 10, 11, 20, 25, 2, 11 }, { 0 },
      { 2, 8, 1, 2, 2, 9, 1, 0, 0, 8, 1, 25, 1, 0, 4, 3, 10, 1, 4, 4, 5, 9, 5, 0, 3, 7, 2, 1, 3, 1, 0, 0, 0, 4, 2, 0, 5, 5, 6, 2, 0, 0, 0, 0,
        2, 0, 1, 1, 2, 1, 0, 0, 0, 0, 0, 1, 1, 6, 0, 2, 0, 4, 0, 5, 5, 3, 0, 7, 0 } },
    { 5, 7, { 0, 1, 10, 11, 20, 9, 6 }, { 0 },
      { 2, 7, 1, 2, 2, 7, 1, 0, 0, 7, 1, 20, 1, 0, 5, 3, 10, 1, 5, 2, 0, 9, 9, 0, 2, 0, 1, 1, 2, 3, 5, 4, 1, 2, 2, 0, 1, 1, 4, 1, 0, 0, 0, 0,
        0, 1, 1, 2, 0, 5, 1, 6, 0, 4, 0, 3, 9 } },
    { 2, 6, { 0, 10, 1, 2, 3, 4 }, { 0 },
      { 2, 6, 1, 2, 2, 7, 1, 0, 0, 6, 1, 10, 1, 0, 5, 3, 4, 1, 5, 1, 0, 0, 0, 0, 2, 0, 1, 1, 2, 3, 5, 2, 1, 2, 2, 0, 1, 1, 4, 1, 0, 0, 0, 0,
        0, 2, 1, 3, 0, 4, 1, 5, 0, 1, 0 } },
    { 5, 9, { 0, 1, 10, 11, 20, 12, 13, 14, 19 }, { 0 },
      { 2, 9, 1, 2, 2, 9, 1, 0, 0, 9, 1, 20, 1, 0, 3, 3, 10, 1, 3, 6, 5, 9, 1, 0, 2, 0, 1, 1, 2, 1, 0, 0, 0, 3, 2, 0, 1, 1, 5, 4, 7, 3, 1, 5,
        2, 0, 1, 1, 7, 2, 0, 1, 1, 0, 0, 1, 1, 2, 0, 4, 0, 8, 1, 3, 0, 5, 1, 6, 0, 7, 1 } },
    { 1, 5, { 7, 7, 7, 6, 7 }, { 0 },
      { 2, 5, 1, 2, 2, 7, 1, 0, 0, 5, 1, 1, 0, 0, 4, 3, 1, 0, 4, 1, 0, 0, 0, 0, 3, 5, 0, 0, 3, 1, 0, 0, 0, 0, 2, 0, 0, 0, 2, 1, 0, 0, 0, 0,
        0, 4, 0, 2, 0, 3, 0, 1, 0 } },
    { 0, 1, { 4 }, { 0 },
      { 2, 1, 1, 2, 2, 1, 1, 0, 0, 1, 0, 0, 0, 0, 0 } },
    { 0, 4, { 4, 9, 1, 5 }, { 0 },
      { 2, 4, 1, 2, 2, 5, 1, 0, 0, 4, 1, 5, 1, 0, 3, 3, 3, 1, 3, 1, 0, 0, 0, 0, 2, 0, 1, 1, 2, 1, 0, 0, 0, 0, 0, 3, 1, 2, 0, 1, 0 } },
    { 2, 4, { 0, 5, 9, 12 }, { 2, 2, 1, 2, 2, 1, 1, 0, 0, 2, 0, 3, 2, 0, 0, 0, 7 },
      { 2, 4, 1, 2, 2, 1, 1, 0, 0, 4, 0, 12, 2, 0, 0, 0, 0, 2, 9, 3, 12 } },
    { 4, 7, { 5, 9, 6, 4, 5, 7, 8 }, { 2, 4, 1, 2, 4, 1, 1, 0, 0, 4, 0, 4, 1, 0, 0, 3, 1, 2, 1, 1, 4 },
      { 2, 7, 1, 2, 4, 5, 1, 0, 0, 7, 1, 4, 0, 0, 5, 3, 2, 0, 5, 2, 0, 1, 1, 0, 4, 0, 1, 0, 4, 1, 0, 0, 0, 0, 0, 2, 1, 3, 1, 4, 0, 5, 0, 1,
        0, 6, 1 } },
    { 2, 5, { 0, 10, 6, 8, 1 }, { 2, 2, 1, 2, 2, 1, 1, 0, 0, 2, 0, 50, 3, 0, 4, 1, 1 },
      { 2, 5, 1, 2, 2, 5, 1, 0, 0, 5, 1, 50, 1, 0, 2, 0, 1, 1, 2, 3, 3, 4, 2, 2, 2, 0, 2, 2, 4, 1, 0, 0, 0, 0, 0, 4, 1, 1, 0, 3, 2, 2, 0 } },
};

static size_t words_of(const uint32_t *w)
{
    return 8 + 5 * (size_t)w[5] + 2 * (size_t)w[1];
}

/* The lot of an append of the rows from `had` on to the index in `room`. */
static struct lot night_lot(const uint16_t *rows, uint32_t had, uint32_t n)
{
    struct lot lot = lot_of(rows, had, 1, 2, 2);
    lot.index_length = words_of(room);
    lot.next = n - had;
    lot.append_room = build_words(n);
    lot.append_work = 6 * (size_t)n;
    return lot;
}

/* That of an append of row n - 1. */
static struct lot append_lot(const uint16_t *rows, uint32_t n)
{
    return night_lot(rows, n - 1, n);
}

/* What the naive append gives on this lot, into `grown`; the library is held to it. */
static struct naive_says append(const struct lot *lot, uint32_t *grown)
{
    struct naive_table table = { lot->table, lot->table_length + lot->next, lot->c };
    struct naive_index index = { lot->index, lot->index_length };
    struct naive_room r = { grown, lot->append_room }, w = { work, lot->append_work };
    try_append(&trial, lot);
    return naive_append(table, index, r, w);
}

static void append_cases(void)
{
    static uint32_t grown[WORDS];
    for (size_t i = 0; i < sizeof append_list / sizeof *append_list; i++) {
        const struct append_case *a = &append_list[i];
        struct lot lot = lot_of(a->rows, a->n - 1, 1, 2, 2);
        build(&lot);
        if (a->before[0] != 0)
            memcpy(room, a->before, sizeof a->before);
        lot = append_lot(a->rows, a->n);
        expect_says("an append", append(&lot, grown), 0, (uint32_t)words_of(a->words), a->words[5]);
        expect_words("an append's words", grown, a->words, words_of(a->words));
    }
}

/* 27 equal rows and one that differs by 1: the leaf at depth 24 grows. */
static void append_deepest(void)
{
    static uint32_t grown[WORDS];
    uint16_t table[28];
    for (uint32_t i = 0; i < 28; i++)
        table[i] = i < 27 ? 7 : 6;
    struct lot lot = lot_of(table, 27, 1, 2, 2);
    build(&lot);
    lot = append_lot(table, 28);
    expect_says("an append at depth 24", append(&lot, grown), 0, 8 + 5 * 49 + 2 * 28, 49);
    for (uint32_t p = 0; p < 28; p++) {
        uint32_t row = p == 0 ? 0 : p < 4 ? 24 + p : 28 - p;
        expect_words("an append at depth 24, order", grown + 8 + 5 * 49 + 2 * p, &row, 1);
    }
}

/* Rooms for the rows before, another number of rows, no rows at all; of several the lowest. */
static void append_refusals(void)
{
    static const uint16_t rows[] = { 0, 1, 10, 11, 20, 6 };
    static uint32_t grown[WORDS];
    built(five);
    struct lot lot = append_lot(rows, 6);
    lot.append_room = build_words(6) - 1;
    expect_says("an append, room a word short", append(&lot, grown), 5, 0, 0);
    lot = append_lot(rows, 6);
    lot.append_work = 35;
    expect_says("an append, workspace a word short", append(&lot, grown), 5, 0, 0);
    lot.next = 0;
    lot.append_work = 29;
    expect_says("an append of no row, workspace a word short", append(&lot, grown), 5, 0, 0);
    lot.append_work = 30;
    expect_says("an append of no row", append(&lot, grown), 8, 0, 0);
    lot.table_length = 0;
    expect_says("an append over no rows", append(&lot, grown), 8, 0, 0);
    lot = append_lot(rows, 6);
    lot.c = 17;
    expect_says("an append with 17 columns", append(&lot, grown), 1, 0, 0);
    lot = append_lot(rows, 6);
    lot.index_length--;
    expect_says("an append to too few words", append(&lot, grown), 8, 0, 0);
    lot = append_lot(rows, 6);
    room[8 + 5 * 5] = 5;
    expect_says("an append to an index with its row", append(&lot, grown), 9, 0, 0);
}

/* ---- A night's rows at once ---- */

/* What the naive append_rows gives on this lot, into `grown`; the library is held to it. */
static struct naive_says append_rows(const struct lot *lot, uint32_t *grown)
{
    struct naive_table table = { lot->table, lot->table_length + lot->next, lot->c };
    struct naive_index index = { lot->index, lot->index_length };
    struct naive_room r = { grown, lot->append_room }, w = { work, lot->append_work };
    try_append_rows(&trial, lot);
    return naive_append_rows(table, index, r, w);
}

static void night_cases(void)
{
    static uint32_t grown[WORDS];
    for (size_t i = 0; i < sizeof night_list / sizeof *night_list; i++) {
        const struct night_case *a = &night_list[i];
        struct lot lot = lot_of(a->rows, a->had, 1, 2, 2);
        build(&lot);
        if (a->before[0] != 0)
            memcpy(room, a->before, sizeof a->before);
        lot = night_lot(a->rows, a->had, a->n);
        expect_says("a night's rows", append_rows(&lot, grown), 0, (uint32_t)words_of(a->words), a->words[5]);
        expect_words("the words of a night's rows", grown, a->words, words_of(a->words));
    }
}

/* 26 equal rows, two more, and one that differs by 1: the leaf at depth 24 grows. */
static void night_deepest(void)
{
    static uint32_t grown[WORDS];
    uint16_t table[29];
    for (uint32_t i = 0; i < 29; i++)
        table[i] = i < 28 ? 7 : 6;
    struct lot lot = lot_of(table, 26, 1, 2, 2);
    build(&lot);
    lot = night_lot(table, 26, 29);
    expect_says("a night's rows at depth 24", append_rows(&lot, grown), 0, 8 + 5 * 49 + 2 * 29, 49);
    for (uint32_t p = 0; p < 29; p++) {
        uint32_t row = p == 0 ? 0 : p < 5 ? 24 + p : 29 - p;
        expect_words("a night's rows at depth 24, order", grown + 8 + 5 * 49 + 2 * p, &row, 1);
    }
}

/* Rooms for the rows before, as many rows as the header says or fewer, none at all, and an index with the first new row's number. */
static void night_refusals(void)
{
    static const uint16_t rows[] = { 0, 1, 10, 11, 20, 6, 12 };
    static uint32_t grown[WORDS];
    built(five);
    struct lot lot = night_lot(rows, 5, 7);
    lot.append_room = build_words(7) - 1;
    expect_says("a night's rows, room a word short", append_rows(&lot, grown), 5, 0, 0);
    lot = night_lot(rows, 5, 7);
    lot.append_work = 41;
    expect_says("a night's rows, workspace a word short", append_rows(&lot, grown), 5, 0, 0);
    lot = night_lot(rows, 5, 5);
    expect_says("a night without rows", append_rows(&lot, grown), 8, 0, 0);
    lot = night_lot(rows, 4, 4);
    expect_says("a night over fewer rows", append_rows(&lot, grown), 8, 0, 0);
    lot = night_lot(rows, 0, 0);
    expect_says("a night over no rows", append_rows(&lot, grown), 8, 0, 0);
    lot = night_lot(rows, 5, 7);
    lot.c = 17;
    expect_says("a night's rows with 17 columns", append_rows(&lot, grown), 1, 0, 0);
    lot = night_lot(rows, 5, 7);
    lot.index_length--;
    expect_says("a night's rows to too few words", append_rows(&lot, grown), 8, 0, 0);
    lot = night_lot(rows, 5, 7);
    room[8 + 5 * 5] = 5;
    expect_says("a night's rows to an index with the first of them", append_rows(&lot, grown), 9, 0, 0);
}

uint32_t self_test(void)
{
    memset(&trial, 0, sizeof trial);
    snprintf(trial.again, sizeof trial.again, "trial --self");
    wrong = 0;
    five_index();
    five_searches();
    four_sevens();
    equal_rows(26, 49, 2);
    equal_rows(27, 49, 3);
    images();
    limits();
    old_cards();
    old_index();
    wrong_inner_reaches();
    closed_by_the_middle();
    across_the_seam();
    built_off_the_circle();
    checked_off_the_circle();
    asked_off_the_circle();
    withdrawn_rows();
    bad_sets();
    withdrawn_twice();
    append_cases();
    append_deepest();
    append_refusals();
    night_cases();
    night_deepest();
    night_refusals();
    return wrong + (uint32_t)trial.differences;
}
