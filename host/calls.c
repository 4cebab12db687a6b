/* The library and the naive implementation side by side, one function a call. */
#include "calls.h"

#include <inttypes.h>
#include <stdio.h>
#include <stdlib.h>
#include <string.h>

#include "bourascul.h"
#include "lend.h"
#include "naive.h"

enum call {
    BUILD,
    APPEND,
    APPEND_ROWS,
    CHECK,
    RADIUS,
    NEAREST,
    NEAREST_ANSWERS,
    LIST,
    WRITE,
    READ,
    STRIKE,
    RESTORE,
    CALLS
};

static const char *const call_names[CALLS] = { "build", "append", "append_rows", "check", "radius", "nearest", "nearest_answers", "list",
                                               "write", "read", "strike", "restore" };

enum {
    NUMBERS = 27,
    TOLD_IN_FULL = 3, /* differences of one kind that are printed; the others are counted */
    SHOWN = 260       /* numbers of a buffer that are printed */
};

static uint64_t given[CALLS][NUMBERS], open_outcomes[CALLS];

void tell_numbers(void)
{
    for (size_t k = 0; k < CALLS; k++) {
        printf("%s gave", call_names[k]);
        for (size_t i = 0; i < NUMBERS; i++)
            if (given[k][i] > 0)
                printf(" %zu: %" PRIu64 ",", i, given[k][i]);
        printf(" open: %" PRIu64 "\n", open_outcomes[k]);
    }
}

/* ---- Telling a difference ---- */

static void show_columns(const char *name, const uint16_t *at, size_t count)
{
    printf("  %s, %zu:", name, count);
    for (size_t i = 0; at != NULL && i < count && i < SHOWN; i++)
        printf(" %u", at[i]);
    printf(count > SHOWN ? " ..\n" : "\n");
}

static void show_words(const char *name, const uint32_t *at, size_t count)
{
    printf("  %s, %zu:", name, count);
    for (size_t i = 0; at != NULL && i < count && i < SHOWN; i++)
        printf(" %" PRIu32, at[i]);
    printf(count > SHOWN ? " ..\n" : "\n");
}

static void show_lot(const struct lot *lot)
{
    printf("  c %" PRIu32 ", m %" PRIu32 ", l %" PRIu32 ", circles %" PRIu32 ", edition %" PRIu32, lot->c, lot->m, lot->l, lot->circles, lot->edition);
    printf(", r %" PRIu32 ", w %" PRIu32 ", node %" PRIu32 "\n", lot->r, lot->w, lot->node);
    printf("  told %" PRIu32 ", row %" PRIu32 "\n", lot->told, lot->row);
    printf("  lengths: room %zu, taken %zu, work %zu, how %zu, rows %zu, distances %zu, answers %zu, image %zu\n", lot->room, lot->taken, lot->work,
           lot->how, lot->rows, lot->distances, lot->answers, lot->image_length);
    printf("  lengths for an append: table %zu, room %zu, work %zu\n", lot->table_length + lot->next, lot->append_room, lot->append_work);
    show_columns("table", lot->table, lot->table_length);
    show_columns("behind the table", lot->table + lot->table_length, lot->next);
    if (lot->fitting != NULL)
        show_columns("table that fits", lot->fitting, lot->table_length);
    show_columns("query", lot->query, lot->query_length);
    show_words("withdrawn", lot->withdrawn, lot->withdrawn_length);
    show_words("index", lot->index, lot->index_length);
}

void tell_difference(struct trial *t, const struct lot *lot, const char *call, const char *what)
{
    t->differences++;
    if (t->differences > TOLD_IN_FULL)
        return;
    printf("difference: %s: %s\n  again: %s\n", call, what, t->again);
    show_lot(lot);
    fflush(stdout);
}

/* ---- Comparing ---- */

static bool same_says(struct naive_says a, struct naive_says b)
{
    return a.number == b.number && a.one == b.one && a.two == b.two;
}

/* One call's outcome against what it should be, its numbers first, then every lent buffer with its guards. */
static void compare(struct trial *t, const struct lot *lot, enum call call, struct naive_says is, struct naive_says should, const enum lent *lents,
                    size_t count)
{
    char what[256];
    t->calls++;
    given[call][should.number]++;
    if (!same_says(is, should)) {
        snprintf(what, sizeof what, "gives %" PRIu32 " %" PRIu32 " %" PRIu32 ", should be %" PRIu32 " %" PRIu32 " %" PRIu32, is.number, is.one,
                 is.two, should.number, should.one, should.two);
        tell_difference(t, lot, call_names[call], what);
        return;
    }
    for (size_t i = 0; i < count; i++) {
        size_t where;
        if (lend_kept(lents[i], &where))
            continue;
        if (where == SIZE_MAX)
            snprintf(what, sizeof what, "wrote outside the lent %s", lend_name(lents[i]));
        else
            snprintf(what, sizeof what, "number %" PRIu32 ", byte %zu of %zu of the lent %s is %u, should be %u", is.number, where,
                     lend_bytes(lents[i]), lend_name(lents[i]), ((uint8_t *)lend_given(lents[i]))[where],
                     ((uint8_t *)lend_expected(lents[i]))[where]);
        tell_difference(t, lot, call_names[call], what);
        return;
    }
}

/* ---- What the naive calls take ---- */

static struct naive_table model_table(const struct lot *lot)
{
    struct naive_table t = { lot->fitting != NULL ? lot->fitting : lot->table, lot->table_length, lot->c };
    return t;
}

static struct naive_index model_index(const struct lot *lot)
{
    struct naive_index x = { lot->index, lot->index_length };
    return x;
}

static struct naive_query model_query(const struct lot *lot)
{
    struct naive_query q = { lot->query, lot->query_length };
    return q;
}

static struct naive_set model_withdrawn(const struct lot *lot)
{
    struct naive_set s = { lot->withdrawn, lot->withdrawn_length };
    return s;
}

static struct naive_room model_room(enum lent which)
{
    struct naive_room r = { lend_expected(which), lend_bytes(which) / sizeof(uint32_t) };
    return r;
}

static struct naive_bytes model_bytes(enum lent which)
{
    struct naive_bytes b = { lend_expected(which), lend_bytes(which) };
    return b;
}

static struct naive_records model_records(enum lent which)
{
    struct naive_records r = { lend_expected(which), lend_bytes(which) / sizeof(struct naive_answer) };
    return r;
}

/* At least `need` bytes that stay from call to call. */
struct kept {
    void *at;
    size_t bytes;
};

static void *keep(struct kept *k, size_t need)
{
    if (need > k->bytes || k->at == NULL) {
        free(k->at);
        k->bytes = need + 4096;
        k->at = malloc(k->bytes);
        if (k->at == NULL)
            abort();
    }
    return k->at;
}

uint32_t naive_verdict(const struct lot *lot)
{
    static struct kept scratch;
    size_t need = lot->c == 0 ? 0 : 6 * (lot->table_length / lot->c);
    struct naive_room room = { keep(&scratch, need * sizeof(uint32_t)), need };
    return naive_check(model_table(lot), model_index(lot), room).number;
}

/* ---- Lending ---- */

static void lend_table(struct trial *t, const struct lot *lot)
{
    lend(&t->draw, LENT_TABLE, lot->table_length * sizeof *lot->table, lot->table);
}

static void lend_index(struct trial *t, const struct lot *lot)
{
    lend(&t->draw, LENT_INDEX, lot->index_length * sizeof *lot->index, lot->index);
}

/* What a search asks: the query, and the rows that are withdrawn. */
static void lend_question(struct trial *t, const struct lot *lot)
{
    lend(&t->draw, LENT_QUERY, lot->query_length * sizeof *lot->query, lot->query);
    lend(&t->draw, LENT_WITHDRAWN, lot->withdrawn_length * sizeof *lot->withdrawn, lot->withdrawn);
}

static void lend_words(struct trial *t, enum lent which, size_t length)
{
    lend(&t->draw, which, length * sizeof(uint32_t), NULL);
}

static struct naive_says three(uint32_t number, uint32_t one, uint32_t two)
{
    struct naive_says s = { number, one, two };
    return s;
}

/* ---- The calls ---- */

void try_build(struct trial *t, const struct lot *lot)
{
    static const enum lent lents[] = { LENT_TABLE, LENT_ROOM, LENT_WORK };
    lend_table(t, lot);
    lend_words(t, LENT_ROOM, lot->room);
    lend_words(t, LENT_WORK, lot->work);
    bourascul_built is = bourascul_build(lend_given(LENT_TABLE), lot->table_length, lot->c, lot->m, lot->l, lot->circles, lot->edition,
                                         lend_given(LENT_ROOM), lot->room, lend_given(LENT_WORK), lot->work);
    struct naive_says should = naive_build(model_table(lot), lot->m, lot->l, lot->circles, lot->edition, model_room(LENT_ROOM),
                                           model_room(LENT_WORK));
    compare(t, lot, BUILD, three(is.number, is.words, is.nodes), should, lents, 3);
}

/* Both calls that put rows into an index are lent the same. */
static void try_appending(struct trial *t, const struct lot *lot, enum call call)
{
    static const enum lent lents[] = { LENT_TABLE, LENT_INDEX, LENT_ROOM, LENT_WORK };
    struct naive_table table = { lot->table, lot->table_length + lot->next, lot->c };
    lend(&t->draw, LENT_TABLE, table.length * sizeof *lot->table, lot->table);
    lend_index(t, lot);
    lend_words(t, LENT_ROOM, lot->append_room);
    lend_words(t, LENT_WORK, lot->append_work);
    bourascul_built is = (call == APPEND ? bourascul_append : bourascul_append_rows)(
        lend_given(LENT_TABLE), table.length, lot->c, lend_given(LENT_INDEX), lot->index_length, lend_given(LENT_ROOM), lot->append_room,
        lend_given(LENT_WORK), lot->append_work);
    struct naive_says should = (call == APPEND ? naive_append : naive_append_rows)(table, model_index(lot), model_room(LENT_ROOM),
                                                                                   model_room(LENT_WORK));
    compare(t, lot, call, three(is.number, is.words, is.nodes), should, lents, 4);
}

void try_append(struct trial *t, const struct lot *lot)
{
    try_appending(t, lot, APPEND);
}

void try_append_rows(struct trial *t, const struct lot *lot)
{
    try_appending(t, lot, APPEND_ROWS);
}

void try_check(struct trial *t, const struct lot *lot)
{
    static const enum lent lents[] = { LENT_TABLE, LENT_INDEX, LENT_WORK };
    lend_table(t, lot);
    lend_index(t, lot);
    lend_words(t, LENT_WORK, lot->work);
    bourascul_checked is = bourascul_check(lend_given(LENT_TABLE), lot->table_length, lot->c, lend_given(LENT_INDEX), lot->index_length,
                                           lend_given(LENT_WORK), lot->work);
    struct naive_says should = naive_check(model_table(lot), model_index(lot), model_room(LENT_WORK));
    compare(t, lot, CHECK, three(is.number, is.place, is.second), should, lents, 3);
}

void try_radius(struct trial *t, const struct lot *lot)
{
    static const enum lent lents[] = { LENT_TABLE, LENT_INDEX, LENT_QUERY, LENT_WITHDRAWN, LENT_HOW };
    lend_table(t, lot);
    lend_index(t, lot);
    lend_question(t, lot);
    lend(&t->draw, LENT_HOW, lot->how, NULL);
    bourascul_within is = bourascul_radius(lend_given(LENT_TABLE), lot->table_length, lot->c, lend_given(LENT_INDEX), lot->index_length,
                                           lend_given(LENT_QUERY), lot->query_length, lot->r, lend_given(LENT_WITHDRAWN), lot->withdrawn_length,
                                           lend_given(LENT_HOW), lot->how);
    struct naive_says should = naive_radius(model_table(lot), model_index(lot), model_query(lot), lot->r, model_withdrawn(lot),
                                            model_bytes(LENT_HOW));
    compare(t, lot, RADIUS, three(is.number, is.inside, is.measured), should, lents, 5);
}

static void lend_nearest(struct trial *t, const struct lot *lot)
{
    lend_table(t, lot);
    lend_index(t, lot);
    lend_question(t, lot);
    lend_words(t, LENT_ROWS, lot->rows);
    lend_words(t, LENT_DISTANCES, lot->distances);
    lend(&t->draw, LENT_HOW, lot->how, NULL);
    lend_words(t, LENT_WORK, lot->work);
}

/* How many answers a nearest search gives on an index in shape: as many as are wanted, or positions hold a row that is not withdrawn. */
static size_t settled_answers(const struct lot *lot)
{
    struct naive_set withdrawn = model_withdrawn(lot);
    const uint32_t *pair = lot->index + 8 + 5 * (size_t)lot->index[5];
    size_t n = lot->table_length / lot->c, remaining = 0;
    for (size_t p = 0; p < n; p++)
        remaining += !naive_is_in(withdrawn, pair[2 * p]);
    return lot->w < remaining ? lot->w : remaining;
}

/* An answer that can stand behind the one before it: a row that there is, not withdrawn, and no nearer; of two as near no lower row. */
static bool stands(struct naive_set withdrawn, const uint32_t *rows, const uint32_t *distances, size_t i, size_t n)
{
    if (rows[i] >= n || naive_is_in(withdrawn, rows[i]))
        return false;
    return i == 0 || distances[i - 1] < distances[i] || (distances[i - 1] == distances[i] && rows[i - 1] <= rows[i]);
}

/* On an index that the full check refuses it is open which rows are answers and which were measured. Settled is: how many answers there are, each a
   row that is not withdrawn with its own distance, in order; 3 exactly at the answers, else 0 or 1; and the count of 1 and 3. What is settled is put
   in the place of what is open; where an answer can't stand, another number shows it. */
static struct naive_says settle_nearest(const struct lot *lot)
{
    size_t n = lot->table_length / lot->c, asked = settled_answers(lot);
    const uint32_t *rows = lend_given(LENT_ROWS), *distances = lend_given(LENT_DISTANCES);
    const uint8_t *how = lend_given(LENT_HOW);
    uint32_t *rows_should = lend_expected(LENT_ROWS), *distances_should = lend_expected(LENT_DISTANCES), measured = 0;
    uint8_t *how_should = lend_expected(LENT_HOW);
    lend_undo(LENT_ROWS);
    lend_undo(LENT_DISTANCES);
    for (size_t i = 0; i < n; i++)
        how_should[i] = how[i] % 2;
    for (size_t i = 0; i < asked; i++) {
        rows_should[i] = stands(model_withdrawn(lot), rows, distances, i, n) ? rows[i] : ~rows[i];
        if (rows[i] < n) {
            distances_should[i] = naive_distance(lot->table + lot->c * rows[i], lot->query, lot->c, lot->index[7]);
            how_should[rows[i]] = 3;
        }
    }
    for (size_t i = 0; i < n; i++)
        measured += how_should[i] % 2;
    return three(0, (uint32_t)asked, measured);
}

/* The records are the rows and distances of the same call. */
static void settle_records(const struct lot *lot)
{
    size_t asked = settled_answers(lot);
    const uint32_t *rows = lend_expected(LENT_ROWS), *distances = lend_expected(LENT_DISTANCES);
    bourascul_answer *answers = lend_expected(LENT_ANSWERS);
    lend_undo(LENT_ANSWERS);
    for (size_t i = 0; i < asked; i++)
        answers[i] = (bourascul_answer){ rows[i], distances[i] };
}

static bool nearest_is_open(const struct lot *lot, struct naive_says should)
{
    return should.number == 0 && lot->fitting == NULL && naive_verdict(lot) != 0;
}

void try_nearest(struct trial *t, const struct lot *lot)
{
    static const enum lent lents[] = { LENT_TABLE, LENT_INDEX, LENT_QUERY, LENT_WITHDRAWN, LENT_ROWS, LENT_DISTANCES, LENT_HOW, LENT_WORK };
    lend_nearest(t, lot);
    bourascul_closest got = bourascul_nearest(lend_given(LENT_TABLE), lot->table_length, lot->c, lend_given(LENT_INDEX), lot->index_length,
                                              lend_given(LENT_QUERY), lot->query_length, lot->w, lend_given(LENT_WITHDRAWN), lot->withdrawn_length,
                                              lend_given(LENT_ROWS), lot->rows, lend_given(LENT_DISTANCES), lot->distances, lend_given(LENT_HOW),
                                              lot->how, lend_given(LENT_WORK), lot->work);
    struct naive_says is = three(got.number, got.given, got.measured);
    struct naive_says should = naive_nearest(model_table(lot), model_index(lot), model_query(lot), lot->w, model_withdrawn(lot),
                                             model_room(LENT_ROWS), model_room(LENT_DISTANCES), model_bytes(LENT_HOW), model_room(LENT_WORK));
    if (nearest_is_open(lot, should)) {
        open_outcomes[NEAREST]++;
        should = settle_nearest(lot);
    }
    compare(t, lot, NEAREST, is, should, lents, 8);
}

void try_nearest_answers(struct trial *t, const struct lot *lot)
{
    static const enum lent lents[] = { LENT_TABLE, LENT_INDEX,     LENT_QUERY, LENT_WITHDRAWN, LENT_ANSWERS,
                                       LENT_ROWS,  LENT_DISTANCES, LENT_HOW,   LENT_WORK };
    lend_nearest(t, lot);
    lend(&t->draw, LENT_ANSWERS, lot->answers * sizeof(bourascul_answer), NULL);
    bourascul_closest got = bourascul_nearest_answers(lend_given(LENT_TABLE), lot->table_length, lot->c, lend_given(LENT_INDEX), lot->index_length,
                                                      lend_given(LENT_QUERY), lot->query_length, lot->w, lend_given(LENT_WITHDRAWN),
                                                      lot->withdrawn_length, lend_given(LENT_ANSWERS), lot->answers, lend_given(LENT_ROWS),
                                                      lot->rows, lend_given(LENT_DISTANCES), lot->distances, lend_given(LENT_HOW), lot->how, lend_given(LENT_WORK), lot->work);
    struct naive_says is = three(got.number, got.given, got.measured);
    struct naive_says should = naive_nearest_answers(model_table(lot), model_index(lot), model_query(lot), lot->w, model_withdrawn(lot),
                                                     model_records(LENT_ANSWERS), model_room(LENT_ROWS), model_room(LENT_DISTANCES),
                                                     model_bytes(LENT_HOW), model_room(LENT_WORK));
    if (nearest_is_open(lot, should)) {
        open_outcomes[NEAREST_ANSWERS]++;
        should = settle_nearest(lot);
        settle_records(lot);
    }
    compare(t, lot, NEAREST_ANSWERS, is, should, lents, 9);
}

void try_searches(struct trial *t, const struct lot *lot)
{
    try_radius(t, lot);
    try_nearest(t, lot);
    try_nearest_answers(t, lot);
}

void try_list(struct trial *t, const struct lot *lot)
{
    static const enum lent lents[] = { LENT_INDEX };
    lend_index(t, lot);
    bourascul_part is = bourascul_list(lend_given(LENT_INDEX), lot->index_length, lot->node);
    struct naive_part should = naive_list(model_index(lot), lot->node);
    compare(t, lot, LIST, three(0, is.start, is.length), three(0, should.start, should.length), lents, 1);
}

void try_write(struct trial *t, const struct lot *lot)
{
    static const enum lent lents[] = { LENT_INDEX, LENT_IMAGE };
    lend_index(t, lot);
    lend(&t->draw, LENT_IMAGE, lot->image_length, NULL);
    bourascul_written is = bourascul_write(lend_given(LENT_INDEX), lot->index_length, lend_given(LENT_IMAGE), lot->image_length);
    struct naive_says should = naive_write(model_index(lot), model_bytes(LENT_IMAGE));
    compare(t, lot, WRITE, three(is.number, is.blocks, 0), should, lents, 2);
}

void try_read(struct trial *t, const struct lot *lot)
{
    static const enum lent lents[] = { LENT_IMAGE, LENT_TABLE, LENT_ROOM };
    lend(&t->draw, LENT_IMAGE, lot->image_length, lot->image);
    lend_table(t, lot);
    lend_words(t, LENT_ROOM, lot->taken);
    bourascul_taken is = bourascul_read(lend_given(LENT_IMAGE), lot->image_length, lend_given(LENT_TABLE), lot->table_length, lot->c,
                                        lend_given(LENT_ROOM), lot->taken);
    struct naive_says should = naive_read(lot->image, lot->image_length, model_table(lot), model_room(LENT_ROOM));
    compare(t, lot, READ, three(is.number, is.place, is.words), should, lents, 3);
}

void try_card(struct trial *t, const struct lot *lot)
{
    static struct kept card;
    struct lot image = *lot;
    uint8_t *bytes = keep(&card, 512 * (lot->index_length / 127 + 1));
    image.image_length = 512 * naive_card(lot->index, lot->index_length, bytes);
    image.image = bytes;
    try_read(t, &image);
}

/* One order, given to the set as it is lent to both. */
static void try_order(struct trial *t, const struct lot *lot, enum call call, uint32_t (*library)(uint32_t *, size_t, uint32_t, uint32_t),
                      uint32_t (*naive)(struct naive_room, uint32_t, uint32_t))
{
    static const enum lent lents[] = { LENT_WITHDRAWN };
    lend(&t->draw, LENT_WITHDRAWN, lot->withdrawn_length * sizeof *lot->withdrawn, lot->withdrawn);
    uint32_t is = library(lend_given(LENT_WITHDRAWN), lot->withdrawn_length, lot->told, lot->row);
    uint32_t should = naive(model_room(LENT_WITHDRAWN), lot->told, lot->row);
    compare(t, lot, call, three(is, 0, 0), three(should, 0, 0), lents, 1);
}

void try_strike(struct trial *t, const struct lot *lot)
{
    try_order(t, lot, STRIKE, bourascul_strike, naive_strike);
}

void try_restore(struct trial *t, const struct lot *lot)
{
    try_order(t, lot, RESTORE, bourascul_restore, naive_restore);
}
