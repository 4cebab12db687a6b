/* A row appended beside a build over as many rows, and a night's rows at once and one by one, over a season of six columns. */
#include "bench.h"

#include <stdio.h>
#include <stdlib.h>
#include <string.h>

#include "bourascul.h"
#include "minutes.h"

enum {
    SIZES = 3,
    NIGHT = 600,
    CALLS = 20,
    PASSES = 5
};

static const uint32_t sizes[SIZES] = { 3000, 90000, 525600 };

/* A season of n rows with a night's rows behind it. Room 0 has the index of the n rows; a night goes from it to the others in turn. */
struct season {
    uint32_t n, words;
    uint16_t *columns;
    uint32_t *room[3], *work;
};

/* The least time of several passes each, in microseconds: a build over n + 1 rows, an append of row n, the shape test in it; a build over all rows
   with the night's, and a night at once and one by one. */
struct times {
    double build, append, shape, rebuild, night, one_by_one;
    uint32_t fresh, grown; /* the nodes of a build over the n rows and the night, and those after the night */
};

static struct season make_season(uint32_t n)
{
    size_t rows = (size_t)n + NIGHT;
    struct season s = { n, 0, bench_touched(rows * MINUTE_COLUMNS * sizeof(uint16_t), 1), { NULL, NULL, NULL }, NULL };
    struct minute *minutes = bench_touched(rows * sizeof *minutes, 1);
    make_minutes(384, rows, minutes);
    for (size_t i = 0; i < rows * MINUTE_COLUMNS; i++)
        s.columns[i] = minutes[i / MINUTE_COLUMNS].column[i % MINUTE_COLUMNS];
    free(minutes);
    for (int k = 0; k < 3; k++)
        s.room[k] = bench_touched(BOURASCUL_ROOM_WORDS(rows) * sizeof(uint32_t), 1);
    s.work = bench_touched(BOURASCUL_WORK_WORDS(rows) * sizeof(uint32_t), 1);
    return s;
}

static void free_season(struct season *s)
{
    for (int k = 0; k < 3; k++)
        free(s->room[k]);
    free(s->work);
    free(s->columns);
}

static bourascul_built build(struct season *s, uint32_t rows, int to)
{
    bourascul_built is = bourascul_build(s->columns, (size_t)rows * MINUTE_COLUMNS, MINUTE_COLUMNS, CENTRES, LEAF, 0, 2, s->room[to],
                                         BOURASCUL_ROOM_WORDS(rows), s->work, BOURASCUL_WORK_WORDS(rows));
    bench_agree(is.number == 0, "build refused");
    return is;
}

/* The last of so many rows goes into the index in room `from`. */
static bourascul_built append(struct season *s, uint32_t rows, int from, uint32_t words, int to)
{
    bourascul_built is = bourascul_append(s->columns, (size_t)rows * MINUTE_COLUMNS, MINUTE_COLUMNS, s->room[from], words, s->room[to],
                                          BOURASCUL_ROOM_WORDS(rows), s->work, BOURASCUL_WORK_WORDS(rows));
    bench_agree(is.number == 0, "append refused");
    return is;
}

/* All of the night's rows go into the index in room 0. */
static bourascul_built append_at_once(struct season *s, int to)
{
    size_t rows = (size_t)s->n + NIGHT;
    bourascul_built is = bourascul_append_rows(s->columns, rows * MINUTE_COLUMNS, MINUTE_COLUMNS, s->room[0], s->words, s->room[to],
                                               BOURASCUL_ROOM_WORDS(rows), s->work, BOURASCUL_WORK_WORDS(rows));
    bench_agree(is.number == 0, "append_rows refused");
    return is;
}

/* Gives the room that the index is in at last. */
static int append_night(struct season *s, bourascul_built *is)
{
    int from = 0;
    is->words = s->words;
    for (uint32_t i = 1; i <= NIGHT; i++) {
        int to = from == 1 ? 2 : 1;
        *is = append(s, s->n + i, from, is->words, to);
        from = to;
    }
    return from;
}

static double least(double so_far, double begin, uint32_t calls)
{
    double mean = (bench_now() - begin) / calls;
    return so_far == 0 || mean < so_far ? mean : so_far;
}

static void time_pass(struct season *s, struct times *t)
{
    bourascul_built is;
    double begin = bench_now();
    build(s, s->n + 1, 1);
    t->build = least(t->build, begin, 1);
    begin = bench_now();
    for (uint32_t i = 0; i < CALLS; i++)
        append(s, s->n + 1, 0, s->words, 1);
    t->append = least(t->append, begin, CALLS);
    begin = bench_now();
    for (uint32_t i = 0; i < CALLS; i++)
        bourascul_list(s->room[0], s->words, 0);
    t->shape = least(t->shape, begin, CALLS);
    begin = bench_now();
    build(s, s->n + NIGHT, 1);
    t->rebuild = least(t->rebuild, begin, 1);
    begin = bench_now();
    append_at_once(s, 1);
    t->night = least(t->night, begin, 1);
    begin = bench_now();
    append_night(s, &is);
    t->one_by_one = least(t->one_by_one, begin, 1);
}

/* What a night's appends leave is accepted, and is what the night at once leaves. */
static void check_night(struct season *s, struct times *t)
{
    uint32_t rows = s->n + NIGHT;
    bourascul_built is;
    int at = append_night(s, &is), other = at == 1 ? 2 : 1;
    bourascul_built once = append_at_once(s, other);
    bench_agree(once.words == is.words && memcmp(s->room[at], s->room[other], is.words * sizeof(uint32_t)) == 0, "a night at once is another");
    t->grown = is.nodes;
    bench_agree(bourascul_check(s->columns, (size_t)rows * MINUTE_COLUMNS, MINUTE_COLUMNS, s->room[at], is.words, s->work,
                                BOURASCUL_WORK_WORDS(rows)).number == 0, "check of the appended refused");
    t->fresh = build(s, rows, 1).nodes;
}

void bench_append(uint32_t most)
{
    printf("Appends over a season of six columns, m = %d, l = %d. Build: over all rows and one more; append: of that one; shape: the share of an\n"
           "append that the shape test takes. Rebuild: over all rows and %d more; these %d at once, and one by one. Times in milliseconds.\n\n"
           "| rows | build | append | build / append | shape | rebuild | at once | rebuild / at once | one by one | these / at once | nodes then | nodes of "
           "a build |\n"
           "|---|---|---|---|---|---|---|---|---|---|---|---|\n", CENTRES, LEAF, NIGHT, NIGHT);
    for (size_t i = 0; i < SIZES && sizes[i] <= most; i++) {
        struct times t = { 0, 0, 0, 0, 0, 0, 0, 0 };
        fprintf(stderr, "bench: appends, %u rows\n", sizes[i]);
        struct season s = make_season(sizes[i]);
        s.words = build(&s, s.n, 0).words;
        check_night(&s, &t);
        for (int pass = 0; pass < PASSES; pass++)
            time_pass(&s, &t);
        printf("| %u | %.2f | %.3f | %.1f | %.0f%% | %.2f | %.2f | %.1f | %.1f | %.1f | %u | %u |\n", s.n, t.build / 1e3, t.append / 1e3,
               t.build / t.append, 100 * t.shape / t.append, t.rebuild / 1e3, t.night / 1e3, t.rebuild / t.night, t.one_by_one / 1e3,
               t.one_by_one / t.night, t.grown, t.fresh);
        free_season(&s);
    }
}
