/* What is tried: each kind draws a case and lends it to the calls. The list stands at the end. */
#include "kinds.h"

#include <stdlib.h>
#include <string.h>

#include "bourascul.h"
#include "samples.h"

static struct sample sample;

size_t shorter(struct draw *d, size_t length)
{
    return length == 0 ? 0 : draw_one_in(d, 2) ? length - 1 : draw_below(d, (uint32_t)length);
}

static size_t around(struct draw *d, size_t length)
{
    return draw_one_in(d, 4) ? shorter(d, length) : length + (draw_one_in(d, 2) ? 0 : draw_below(d, 40));
}

void every_call(struct trial *t, const struct lot *lot)
{
    try_append(t, lot);
    try_check(t, lot);
    try_searches(t, lot);
    try_list(t, lot);
    struct lot image = *lot;
    image.image_length = draw_below(&t->draw, (uint32_t)(512 * ((lot->index_length + 126) / 127) + 600));
    try_write(t, &image);
    try_card(t, lot);
    try_append_rows(t, lot);
}

/* ---- Build ---- */

static void build_any(struct trial *t, uint32_t limit)
{
    draw_sample(&t->draw, &sample, limit);
    struct lot lot = fair_lot(&t->draw, &sample);
    try_build(t, &lot);
}

/* Each end of m and of l, and one beyond it: asked of a build, and in the header of an index. */
static void each_end(struct trial *t, uint32_t limit)
{
    static const uint32_t pairs[][2] = { { 0, 2 }, { 1, 1 }, { 1, 2 }, { 2, 1 }, { 2, 2 }, { 2, 1024 }, { 2, 1025 }, { 64, 63 }, { 64, 64 }, { 64, 1024 },
                                         { 64, 1025 }, { 65, 64 }, { 65, 65 }, { 65, 1024 }, { UINT32_MAX, UINT32_MAX } };
    draw_sample(&t->draw, &sample, limit);
    index_built(&sample);
    for (size_t i = 0; i < sizeof pairs / sizeof *pairs; i++) {
        sample.index[3] = pairs[i][0];
        sample.index[4] = pairs[i][1];
        struct lot lot = fair_lot(&t->draw, &sample);
        lot.m = pairs[i][0];
        lot.l = pairs[i][1];
        try_build(t, &lot);
        every_call(t, &lot);
    }
}

/* Edition 2 and others: asked of a build with each length of room that an edition ever asked for, in the header of an index,
   and in a card's first word. Behind an index of edition 1 stand words enough to be read as edition 2. */
static void each_edition(struct trial *t, uint32_t limit)
{
    static const uint32_t editions[] = { 0, 1, 2, 3, 4, 5, 257, 258, 65537, 65538, 0x80000001u, 0x80000002u, UINT32_MAX };
    draw_sample(&t->draw, &sample, limit < 30 ? limit : 30);
    sample.edition = draw_between(&t->draw, 1, 2);
    index_any(&t->draw, &sample);
    size_t own = sample.index_length, more = sample.edition == 1 ? sample.index[5] : 0;
    for (size_t i = 0; i < more; i++)
        sample.index[own + i] = draw_below(&t->draw, sample.n);
    for (size_t i = 0; i < sizeof editions / sizeof *editions; i++) {
        sample.index[0] = editions[i];
        struct lot lot = fair_lot(&t->draw, &sample);
        lot.edition = editions[i];
        for (uint32_t room = 0; room < 4; room++) {
            lot.room = (room < 2 ? 10 : 12) * (size_t)sample.n + 8 - room % 2;
            try_build(t, &lot);
        }
        try_card(t, &lot);
        lot.index_length += more;
        every_call(t, &lot);
    }
}

/* m and l at their ends, with enough rows that the root is inner. */
static void build_ends(struct trial *t, uint32_t limit)
{
    static const uint32_t centres[] = { 2, 64, 63, 3 };
    draw_sample(&t->draw, &sample, limit);
    sample.m = centres[draw_below(&t->draw, 4)];
    sample.l = sample.m + draw_below(&t->draw, 2);
    struct lot lot = fair_lot(&t->draw, &sample);
    try_build(t, &lot);
    index_built(&sample);
    lot = fair_lot(&t->draw, &sample);
    every_call(t, &lot);
}

static void build_equal(struct trial *t, uint32_t limit)
{
    static const uint32_t rows[] = { 4, 25, 26, 27, 28, 60, 100, 0 };
    uint32_t n = rows[draw_below(&t->draw, 8)];
    draw_equal_rows(&t->draw, &sample, n == 0 ? draw_below(&t->draw, limit + 30) : n);
    struct lot lot = fair_lot(&t->draw, &sample);
    try_build(t, &lot);
    index_built(&sample);
    for (uint32_t i = 0; i < 3; i++) {
        lot = fair_lot(&t->draw, &sample);
        every_call(t, &lot);
        draw_query(&t->draw, &sample);
    }
    sample.edition = 1;
    index_built(&sample);
    lot = fair_lot(&t->draw, &sample);
    try_card(t, &lot);
}

/* ---- Accepted indexes ---- */

/* What the library writes of an index it reads again the same, over the table. */
static void comes_back(struct trial *t, const struct lot *lot)
{
    static uint8_t image[SAMPLE_BLOCKS * 512];
    static uint32_t words[SAMPLE_WORDS];
    bourascul_written there = bourascul_write(lot->index, lot->index_length, image, sizeof image);
    bourascul_taken back = bourascul_read(image, BOURASCUL_BLOCK_BYTES * (size_t)(there.blocks < SAMPLE_BLOCKS ? there.blocks : 0), lot->table,
                                          lot->table_length, lot->c, words, BOURASCUL_ROOM_WORDS(sample.n));
    if (there.number != 0 || back.number != 0 || back.words != lot->index_length || memcmp(words, lot->index, back.words * sizeof *words) != 0)
        tell_difference(t, lot, "write and read", "what was written is not read again the same");
}

static void accepted(struct trial *t, uint32_t limit, bool foreign)
{
    draw_sample(&t->draw, &sample, limit);
    if (foreign)
        index_foreign(&t->draw, &sample);
    else
        index_built(&sample);
    struct lot lot = fair_lot(&t->draw, &sample);
    if (naive_verdict(&lot) != 0)
        tell_difference(t, &lot, "naive check", "refuses an index that was made to be accepted");
    comes_back(t, &lot);
    try_card(t, &lot);
    /* More words than the header asks for may be lent. */
    for (uint32_t more = draw_one_in(&t->draw, 3) ? draw_between(&t->draw, 1, 5) : 0; more > 0; more--)
        sample.index[sample.index_length++] = (uint32_t)draw_next(&t->draw);
    lot.index_length = sample.index_length;
    try_check(t, &lot);
    for (uint32_t i = 0; i < 6; i++) {
        draw_query(&t->draw, &sample);
        lot = fair_lot(&t->draw, &sample);
        try_searches(t, &lot);
        try_list(t, &lot);
    }
}

static void accepted_built(struct trial *t, uint32_t limit) { accepted(t, limit, false); }
static void accepted_foreign(struct trial *t, uint32_t limit) { accepted(t, limit, true); }

/* ---- Old cards ---- */

/* Leaves the fifth word of each node out of an index of edition 2, so that it is one of edition 1; gives its words. */
static size_t make_old(uint32_t *words)
{
    size_t nodes = words[5], pairs = 2 * (size_t)words[1];
    for (size_t k = 0; k < nodes; k++)
        memmove(words + 8 + 4 * k, words + 8 + 5 * k, 4 * sizeof *words);
    memmove(words + 8 + 4 * nodes, words + 8 + 5 * nodes, pairs * sizeof *words);
    words[0] = 1;
    return 8 + 4 * nodes + pairs;
}

/* Another table of the same rows and columns. */
static void change_table(struct draw *d, struct sample *s)
{
    for (uint32_t i = s->n == 0 ? 0 : draw_between(d, 1, s->n); i > 0; i--) {
        uint32_t at = draw_below(d, s->n * s->c);
        s->table[at] = on_circle(s, at % s->c, draw_below(d, draw_one_in(d, 2) ? 65536 : 8));
    }
}

/* An index of edition 1: all other calls on it, and its card read with each length of room that matters. What was accepted but
   for the reach must come out with the reach it had; then all calls on what came out. */
static void old_card(struct trial *t, uint32_t limit)
{
    static uint32_t whole[SAMPLE_WORDS], taken[SAMPLE_WORDS];
    struct draw *d = &t->draw;
    draw_sample(d, &sample, limit);
    index_any(d, &sample);
    struct lot lot = fair_lot(d, &sample);
    bool fits = naive_verdict(&lot) == 0;
    memcpy(whole, sample.index, sample.index_length * sizeof *whole);
    sample.edition = 1;
    sample.index_length = make_old(sample.index);
    if (draw_one_in(d, 4)) {
        change_table(d, &sample);
        fits = false;
    }
    draw_image(&sample);
    lot = fair_lot(d, &sample);
    every_call(t, &lot);
    size_t words = taken_words(&sample);
    const size_t rooms[] = { 0, lot.index_length - 1, lot.index_length, words - 1, words, words + 9 };
    for (size_t i = 0; i < sizeof rooms / sizeof *rooms; i++) {
        lot.taken = rooms[i];
        try_read(t, &lot);
    }
    bourascul_taken is = bourascul_read(lot.image, lot.image_length, lot.table, lot.table_length, lot.c, taken, BOURASCUL_ROOM_WORDS(sample.n));
    if (is.number != 0 || is.words != words || (fits && memcmp(taken, whole, words * sizeof *taken) != 0)) {
        tell_difference(t, &lot, "read", "an old card is not read as the index of edition 2");
        return;
    }
    memcpy(sample.index, taken, words * sizeof *taken);
    sample.index_length = words;
    sample.edition = 2;
    for (uint32_t i = 0; i < 3; i++) {
        lot = fair_lot(d, &sample);
        every_call(t, &lot);
        draw_query(d, &sample);
    }
    comes_back(t, &lot);
}

/* ---- Spoilt indexes ---- */

static void wild(struct trial *t, uint32_t limit)
{
    draw_sample(&t->draw, &sample, limit);
    index_wild(&t->draw, &sample);
    for (uint32_t i = 0; i < 3; i++) {
        draw_query(&t->draw, &sample);
        struct lot lot = fair_lot(&t->draw, &sample);
        every_call(t, &lot);
    }
}

/* Every word of a small index set to many values, one at a time, and each given to the calls. */
static void change_each_word(struct trial *t, uint32_t limit, uint32_t edition, void (*calls)(struct trial *, const struct lot *))
{
    draw_sample(&t->draw, &sample, limit < 7 ? limit : 7);
    sample.edition = edition;
    index_any(&t->draw, &sample);
    size_t length = sample.index_length;
    for (size_t i = 0; i < length; i++) {
        uint32_t right = sample.index[i], n = sample.n;
        const uint32_t values[] = { 0, 1, 2, 3, right + 1, right - 1, n, n - 1, n + 1, 1048560, 1048561, 0x80000000u, UINT32_MAX,
                                    sample.index[(i + 1) % length], sample.index[(i + node_words(sample.edition)) % length], right + sample.m };
        for (size_t v = 0; v < sizeof values / sizeof *values; v++) {
            sample.index[i] = values[v];
            struct lot lot = fair_lot(&t->draw, &sample);
            lot.taken = around(&t->draw, taken_words(&sample));
            calls(t, &lot);
        }
        sample.index[i] = right;
    }
}

static void each_word(struct trial *t, uint32_t limit) { change_each_word(t, limit, 2, every_call); }
static void each_word_of_card(struct trial *t, uint32_t limit) { change_each_word(t, limit, 1, try_card); }

/* A small index cut at every length, and every two words changed about. */
static void cut_and_swap(struct trial *t, uint32_t limit, uint32_t edition, void (*calls)(struct trial *, const struct lot *))
{
    draw_sample(&t->draw, &sample, limit < 5 ? limit : 5);
    sample.edition = edition;
    index_any(&t->draw, &sample);
    size_t length = sample.index_length;
    for (size_t cut = 0; cut < length; cut++) {
        sample.index_length = cut;
        struct lot lot = fair_lot(&t->draw, &sample);
        calls(t, &lot);
    }
    sample.index_length = length;
    for (size_t i = 0; i < length; i++)
        for (size_t j = 0; j < i; j++) {
            uint32_t a = sample.index[i], b = sample.index[j];
            if (a == b)
                continue;
            sample.index[i] = b;
            sample.index[j] = a;
            struct lot lot = fair_lot(&t->draw, &sample);
            calls(t, &lot);
            sample.index[i] = a;
            sample.index[j] = b;
        }
}

static void cut_and_swapped(struct trial *t, uint32_t limit) { cut_and_swap(t, limit, 2, every_call); }
static void cut_and_swapped_card(struct trial *t, uint32_t limit) { cut_and_swap(t, limit, 1, try_card); }

static void spoil_at_random(struct trial *t, uint32_t limit, uint32_t edition, void (*calls)(struct trial *, const struct lot *))
{
    draw_sample(&t->draw, &sample, limit);
    sample.edition = edition;
    index_any(&t->draw, &sample);
    uint32_t times = draw_between(&t->draw, 1, 4);
    for (uint32_t i = 0; i < times; i++) {
        spoil_index(&t->draw, &sample);
        struct lot lot = fair_lot(&t->draw, &sample);
        lot.taken = around(&t->draw, taken_words(&sample));
        calls(t, &lot);
    }
}

static void spoilt_index(struct trial *t, uint32_t limit) { spoil_at_random(t, limit, 2, every_call); }
static void spoilt_card(struct trial *t, uint32_t limit) { spoil_at_random(t, limit, 1, try_card); }

static void words_at_random(struct trial *t, uint32_t limit)
{
    draw_sample(&t->draw, &sample, limit < 40 ? limit : 40);
    sample.edition = draw_between(&t->draw, 1, 2);
    random_words(&t->draw, &sample);
    struct lot lot = fair_lot(&t->draw, &sample);
    every_call(t, &lot);
}

/* ---- Refusals ---- */

uint32_t draw_bad_columns(struct draw *d, uint32_t c)
{
    const uint32_t bad[] = { 0, 17, 18, UINT32_MAX, 65536 + c, c + 1, c - 1, 2 * c };
    return bad[draw_below(d, 8)];
}

/* One thing made wrong, or nearly so. */
static void one_fault(struct draw *d, struct sample *s, struct lot *lot)
{
    const uint32_t bad_m[] = { 0, 1, 65, 64, UINT32_MAX }, bad_l[] = { 0, 1, lot->m - 1, lot->m, 1024, 1025, UINT32_MAX };
    const uint32_t bad_editions[] = { 0, 3, 3 - s->edition, UINT32_MAX };
    size_t n = s->n, asked = lot->w < n ? lot->w : n;
    switch (draw_below(d, 25)) {
    case 0: lot->c = draw_bad_columns(d, lot->c); break;
    case 1: lot->m = bad_m[draw_below(d, 5)]; break;
    case 2: lot->l = bad_l[draw_below(d, 7)]; break;
    case 3: lot->table_length = draw_one_in(d, 2) ? shorter(d, lot->table_length) : lot->table_length + 1; break;
    case 4: lot->room = shorter(d, build_words(n)); break;
    case 5: lot->work = shorter(d, 6 * n); break;
    case 6: lot->how = shorter(d, n); break;
    case 7: lot->rows = shorter(d, asked); break;
    case 8: lot->distances = shorter(d, asked); break;
    case 9: lot->answers = shorter(d, asked); break;
    case 10: lot->query_length = draw_below(d, 20); break;
    case 11: lot->w = 0; break;
    case 12: lot->index_length = shorter(d, lot->index_length); break;
    case 13: lot->edition = bad_editions[draw_below(d, 4)]; break;
    case 14: lot->taken = shorter(d, taken_words(s)); break;
    case 15: lot->next = draw_below(d, s->c + 1); break;
    case 16: lot->append_room = shorter(d, build_words(n + 1)); break;
    case 17: lot->append_work = shorter(d, 6 * (n + 1)); break;
    case 18: lot->circles |= 1u << draw_between(d, s->c, 31); break;
    case 19: leave_circle(d, s, s->table + s->c * (size_t)draw_below(d, s->n + 1)); break;
    case 20: leave_circle(d, s, s->query); break;
    case 21: lot->withdrawn_length += draw_one_in(d, 2) && lot->withdrawn_length > 0 ? -1 : 1; break;
    case 22: s->withdrawn[n / 32] |= 1u << draw_between(d, n % 32, 31); break;
    default:
        spoil_index(d, s);
        lot->index_length = s->index_length;
        break;
    }
}

static void refusals(struct trial *t, uint32_t limit)
{
    struct draw *d = &t->draw;
    draw_sample(d, &sample, limit < 60 ? limit : 60);
    sample.edition = draw_one_in(d, 6) ? 1 : 2;
    index_any(d, &sample);
    struct lot lot = fair_lot(d, &sample);
    uint32_t faults = draw_between(d, 1, 3);
    for (uint32_t i = 0; i < faults; i++)
        one_fault(d, &sample, &lot);
    try_build(t, &lot);
    every_call(t, &lot);
}

/* One row more than the limit, one number less than that, and rooms that would be too short as well. */
static void too_many_rows(struct trial *t, uint32_t limit)
{
    (void)limit;
    uint16_t *table = calloc(2 * (size_t)1048577, sizeof *table);
    if (table == NULL)
        abort();
    draw_sample(&t->draw, &sample, 9);
    sample.edition = draw_between(&t->draw, 1, 2);
    index_built(&sample);
    struct lot lot = fair_lot(&t->draw, &sample);
    lot.table = table;
    lot.edition = 2;
    lot.circles = draw_below(&t->draw, 2);
    lot.next = 0;
    lot.query_length = draw_between(&t->draw, 1, 2);
    for (lot.c = 1; lot.c <= 2; lot.c++)
        for (size_t less = 0; less < 2; less++) {
            lot.table_length = (size_t)1048577 * lot.c - less;
            try_build(t, &lot);
            try_append(t, &lot);
            try_append_rows(t, &lot);
            try_check(t, &lot);
            try_searches(t, &lot);
            try_card(t, &lot);
        }
    free(table);
}

/* The last rows that there is room for, new to the index of all others; every room is just long enough. */
static void append_last(struct trial *t, struct lot lot, uint32_t *room, uint32_t *work, uint32_t rows)
{
    lot.next = (size_t)rows * lot.c;
    lot.table_length -= lot.next;
    lot.index_length = bourascul_build(lot.table, lot.table_length, lot.c, lot.m, lot.l, lot.circles, 2, room, lot.room, work, lot.work).words;
    (rows == 1 ? try_append : try_append_rows)(t, &lot);
}

/* The greatest table there is, with every room just long enough; and the old card of its index. */
static void largest_table(struct trial *t, uint32_t limit)
{
    (void)limit;
    struct draw *d = &t->draw;
    size_t n = 1048576, asked = build_words(n);
    uint32_t c = draw_between(d, 1, 3), circles = draw_below(d, 2);
    uint16_t *table = malloc(n * c * sizeof *table), query[3] = { 100, 60000, 7 };
    uint32_t *room = malloc(asked * sizeof *room), *work = malloc(6 * n * sizeof *work), *withdrawn = calloc(n / 32, sizeof *withdrawn);
    if (table == NULL || room == NULL || work == NULL || withdrawn == NULL)
        abort();
    for (size_t i = 0; i < n * c; i++)
        table[i] = (uint16_t)draw_below(d, circles == 1 && i % c == 0 ? 3600 : 65536);
    bourascul_built built = bourascul_build(table, n * c, c, 32, 200, circles, 2, room, asked, work, 6 * n);
    struct lot lot = { .table = table, .table_length = n * c, .c = c, .m = 32, .l = 200, .circles = circles, .edition = 2, .index = room,
                       .index_length = built.words, .query = query, .query_length = c, .r = 900, .w = 20, .node = 3, .room = asked,
                       .taken = built.words, .work = 6 * n, .how = n, .rows = 20, .distances = 20, .answers = 20, .append_room = asked,
                       .append_work = 6 * n, .withdrawn = withdrawn, .withdrawn_length = n / 32 };
    for (size_t i = 0; i < n / 32; i++)
        withdrawn[i] = (uint32_t)draw_next(d) & (uint32_t)draw_next(d);
    try_build(t, &lot);
    every_call(t, &lot);
    if (built.number == 0) {
        lot.index_length = make_old(room);
        try_card(t, &lot);
    }
    append_last(t, lot, room, work, 1);
    append_last(t, lot, room, work, 600);
    free(table);
    free(room);
    free(work);
    free(withdrawn);
}

/* ---- Two tables ---- */

/* Another row in row i's place: the query itself, a far one, or one a little off. */
static void replace_row(struct draw *d, const struct sample *s, uint16_t *row)
{
    uint32_t how = draw_below(d, 4);
    for (uint32_t j = 0; j < s->c; j++)
        row[j] = on_circle(s, j, how == 0 ? s->query[j] : how == 1 ? (uint32_t)draw_next(d) : how == 2 ? 65535 : row[j] + draw_below(d, 3));
}

/* The second table: rows that `how` says were measured stay, of the others as many as drawn are replaced. */
static void second_table(struct draw *d, const struct sample *s, const uint8_t *how, uint16_t *table)
{
    uint32_t chances = draw_between(d, 1, 3);
    memcpy(table, s->table, (size_t)s->n * s->c * sizeof *table);
    for (uint32_t i = 0; i < s->n; i++)
        if ((how[i] & 1) == 0 && draw_one_in(d, chances))
            replace_row(d, s, table + (size_t)i * s->c);
}

/* The second table in the lot, after a search on the first marked `how`. Now and then a row of it leaves the circles: then the search is
   refused, and it is the second table that says so. */
static void lend_second(struct draw *d, struct lot *lot, const uint8_t *how, uint16_t *table)
{
    second_table(d, &sample, how, table);
    lot->table = table;
    lot->fitting = sample.table;
    if (sample.n > 0 && draw_one_in(d, 5)) {
        leave_circle(d, &sample, table + (size_t)draw_below(d, sample.n) * sample.c);
        lot->fitting = NULL;
    }
}

static void two_tables(struct trial *t, uint32_t limit)
{
    static uint16_t table[SAMPLE_ROWS * 16];
    static uint8_t how[SAMPLE_ROWS];
    static uint32_t rows[SAMPLE_ROWS], distances[SAMPLE_ROWS], work[6 * SAMPLE_ROWS];
    draw_sample(&t->draw, &sample, limit);
    if (draw_one_in(&t->draw, 2))
        index_foreign(&t->draw, &sample);
    else
        index_built(&sample);
    for (uint32_t i = 0; i < 4; i++) {
        draw_query(&t->draw, &sample);
        struct lot lot = fair_lot(&t->draw, &sample);
        bourascul_radius(sample.table, lot.table_length, lot.c, lot.index, lot.index_length, lot.query, lot.c, lot.r, lot.withdrawn,
                         lot.withdrawn_length, how, SAMPLE_ROWS);
        lend_second(&t->draw, &lot, how, table);
        try_radius(t, &lot);
        bourascul_nearest(sample.table, lot.table_length, lot.c, lot.index, lot.index_length, lot.query, lot.c, lot.w, lot.withdrawn,
                          lot.withdrawn_length, rows, SAMPLE_ROWS, distances, SAMPLE_ROWS, how, SAMPLE_ROWS, work, 6 * SAMPLE_ROWS);
        lend_second(&t->draw, &lot, how, table);
        try_nearest(t, &lot);
        try_nearest_answers(t, &lot);
    }
}

/* ---- Images ---- */

/* Words of either edition with a header that is possible on a card: an index, or anything under such a header, since writing
   does not ask for the shape. */
static void words_to_write(struct draw *d, struct sample *s, uint32_t limit)
{
    draw_sample(d, s, limit);
    s->edition = draw_between(d, 1, 2);
    index_any(d, s);
    if (!draw_one_in(d, 3))
        return;
    if (s->n > 0)
        s->index[5] = draw_between(d, 1, 2 * s->n - 1);
    s->index_length = 8 + node_words(s->edition) * s->index[5] + 2 * (size_t)s->n;
    for (size_t i = 8; i < s->index_length; i++)
        s->index[i] = (uint32_t)draw_next(d);
}

static void image_rooms(struct trial *t, uint32_t limit)
{
    struct draw *d = &t->draw;
    words_to_write(d, &sample, limit);
    draw_image(&sample);
    struct lot lot = fair_lot(d, &sample);
    lot.image_length = around(d, sample.image_length);
    for (uint32_t more = draw_below(d, 3); more > 0; more--)
        sample.index[lot.index_length++] = (uint32_t)draw_next(d);
    try_write(t, &lot);
    lot.image_length = sample.image_length;
    lot.taken = around(d, taken_words(&sample));
    try_read(t, &lot);
}

static void spoilt_image(struct trial *t, uint32_t limit)
{
    words_to_write(&t->draw, &sample, limit);
    draw_image(&sample);
    for (uint32_t i = 0; i < 4; i++) {
        spoil_image(&t->draw, &sample);
        struct lot lot = fair_lot(&t->draw, &sample);
        lot.taken = around(&t->draw, taken_words(&sample));
        try_read(t, &lot);
    }
}

/* Each byte of a small image changed; then each again with its block sealed, so that the later numbers are reached. */
static void each_byte(struct trial *t, uint32_t limit)
{
    words_to_write(&t->draw, &sample, limit < 16 ? limit : 16);
    draw_image(&sample);
    uint8_t held[512];
    for (size_t i = 0; i < sample.image_length; i++) {
        size_t block = i / 512;
        struct lot lot = fair_lot(&t->draw, &sample);
        lot.taken = around(&t->draw, taken_words(&sample));
        memcpy(held, sample.image + 512 * block, 512);
        sample.image[i] ^= (uint8_t)(draw_one_in(&t->draw, 2) ? 1u << draw_below(&t->draw, 8) : draw_between(&t->draw, 1, 255));
        try_read(t, &lot);
        seal_block(&sample, block);
        try_read(t, &lot);
        memcpy(sample.image + 512 * block, held, 512);
    }
}

static void bytes_at_random(struct trial *t, uint32_t limit)
{
    (void)limit;
    draw_sample(&t->draw, &sample, 4);
    sample.image_length = draw_one_in(&t->draw, 2) ? 512 * (size_t)draw_below(&t->draw, 5) : draw_below(&t->draw, 2100);
    uint32_t zeros = draw_between(&t->draw, 1, 3);
    for (size_t i = 0; i < sample.image_length; i++)
        sample.image[i] = draw_one_in(&t->draw, zeros) ? (uint8_t)draw_next(&t->draw) : 0;
    struct lot lot = fair_lot(&t->draw, &sample);
    try_read(t, &lot);
    for (size_t b = 0; b < sample.image_length / 512; b++)
        seal_block(&sample, b);
    try_read(t, &lot);
}

/* Something about a card, its table or its room made wrong, or nearly so. */
static void card_fault(struct draw *d, struct sample *s, struct lot *lot)
{
    size_t rows = draw_below(d, s->n + 4), columns = draw_between(d, 1, 16);
    switch (draw_below(d, 8)) {
    case 0: lot->c = draw_bad_columns(d, lot->c); break;
    case 1: lot->table_length = draw_one_in(d, 2) ? shorter(d, lot->table_length) : lot->table_length + 1; break;
    case 2: lot->table_length = rows * s->c; break;
    case 3:
        lot->c = (uint32_t)columns;
        lot->table_length = columns * s->n;
        break;
    case 4: lot->taken = draw_one_in(d, 2) ? shorter(d, taken_words(s)) : 0; break;
    case 5: lot->taken = s->index_length; break;
    default:
        spoil_image(d, s);
        lot->image_length = s->image_length;
        break;
    }
}

/* The words spoilt under right check words, then up to three faults of the card, its table or its room. */
static void card_refusals(struct trial *t, uint32_t limit)
{
    struct draw *d = &t->draw;
    draw_sample(d, &sample, limit < 60 ? limit : 60);
    sample.edition = draw_between(d, 1, 2);
    index_any(d, &sample);
    for (uint32_t times = draw_below(d, 3); times > 0; times--)
        spoil_index(d, &sample);
    draw_image(&sample);
    struct lot lot = fair_lot(d, &sample);
    for (uint32_t faults = draw_below(d, 4); faults > 0; faults--)
        card_fault(d, &sample, &lot);
    try_read(t, &lot);
}

/* ---- Listing ---- */

static void listing(struct trial *t, uint32_t limit)
{
    static const uint32_t far[] = { UINT32_MAX, 0x80000000u, 0x40000000u, 65536 };
    draw_sample(&t->draw, &sample, limit);
    sample.edition = draw_one_in(&t->draw, 6) ? 1 : 2;
    index_any(&t->draw, &sample);
    if (draw_one_in(&t->draw, 3))
        spoil_index(&t->draw, &sample);
    struct lot lot = fair_lot(&t->draw, &sample);
    uint32_t nodes = sample.index_length > 5 && sample.index[5] < 40 ? sample.index[5] : 40;
    for (lot.node = 0; lot.node < nodes + 2; lot.node++)
        try_list(t, &lot);
    lot.node = far[draw_below(&t->draw, 4)];
    try_list(t, &lot);
}

const struct kind kinds[] = {
    { "build of tables of every style", build_any, 1 },
    { "all calls with each end of m and l, and beyond", each_end, 4 },
    { "all calls with edition 2 and others", each_edition, 2 },
    { "all calls with each set of circles, values around the seam", each_set_of_circles, 4 },
    { "all calls with each two of 22 faults, numbers off the circle and bad sets among them", circle_pairs, 4 },
    { "build with m and l at their ends, all calls on it", build_ends, 2 },
    { "equal rows, 4 to 100 and more, all calls", build_equal, 2 },
    { "check and searches on built indexes", accepted_built, 1 },
    { "check and searches on accepted indexes of another hand", accepted_foreign, 1 },
    { "searches over nine columns and more, w few, r small or met exactly", ceilings, 1 },
    { "old cards: the index of edition 1 in all calls, its card read, all calls on what comes out", old_card, 1 },
    { "all calls on indexes in shape that fit no table", wild, 1 },
    { "all calls, each word of a small index changed to 16 values", each_word, 8 },
    { "each word of a small old card changed to 16 values", each_word_of_card, 8 },
    { "all calls, a small index cut at each length, each two words swapped", cut_and_swapped, 8 },
    { "a small old card cut at each length, each two words swapped", cut_and_swapped_card, 8 },
    { "all calls on indexes spoilt at random", spoilt_index, 1 },
    { "old cards spoilt at random under right check words", spoilt_card, 1 },
    { "all calls on random words as index", words_at_random, 1 },
    { "all calls with one to three faults at once", refusals, 1 },
    { "appends to indexes of any kind, all calls on what comes out", append_any, 1 },
    { "appends to small indexes where rows stand twice", append_twice, 1 },
    { "200 rows appended one by one, from none on", append_chain, 8 },
    { "50 rows appended one by one to indexes of any kind", append_chain_on, 8 },
    { "equal rows appended one by one down to depth 24, and one that differs", append_equal, 8 },
    { "appends with each two of 22 faults", append_pairs, 4 },
    { "searches with sets of each length, and each bit beyond the rows", each_set_length, 4 },
    { "rows struck and restored by two offices, mixed in two ways", mixed_orders, 2 },
    { "orders to bad sets and of rows beyond the last", order_refusals, 4 },
    { "two tables that agree in the rows measured", two_tables, 1 },
    { "asking for more: the laws on two searches, of the library alone", asking_for_more, 1 },
    { "images written and read, rooms short, exact and long", image_rooms, 1 },
    { "images spoilt at random, sealed again or not", spoilt_image, 1 },
    { "each byte of a small image changed, sealed again or not", each_byte, 8 },
    { "random bytes as image", bytes_at_random, 1 },
    { "cards of both editions with up to five faults at once", card_refusals, 1 },
    { "listings, each node and beyond", listing, 1 },
    { "1,048,577 rows", too_many_rows, 200 },
    { "1,048,576 rows, all calls", largest_table, 2000 },
    { "a night's rows at once into indexes of any kind, all calls on what comes out", night_any, 1 },
    { "a night's rows at once into small indexes where rows stand twice", night_twice, 1 },
    { "night after night, from none on", nights_from_none, 4 },
    { "equal rows at once, down to depth 24", night_equal, 4 },
    { "a night's rows with each two of 22 faults", night_pairs, 4 },
};

const size_t kinds_count = sizeof kinds / sizeof *kinds;
