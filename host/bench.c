/* Times the library against a plain scan and against the same algorithms in plain C, all in one run:
     bench PLOT.svg [MOST_ROWS]      prints Markdown tables, writes the plot
     bench --shares [MOST_ROWS]      single calls over a season, by m and l
     bench --append [MOST_ROWS]      one row appended beside a build, and 600 at once and one by one
   Every outcome is compared as well; exit status 1 where two differ. Every buffer is touched before a time is taken, and
   times are the processor's, so that a busy machine shows less. */
#define _DEFAULT_SOURCE
#include "bench.h"

#include <stdio.h>
#include <stdlib.h>
#include <string.h>
#include <time.h>

#include "bourascul.h"
#include "draw.h"
#include "minutes.h"
#include "plain.h"

enum {
    EDITION = 2,
    QUERIES = 60,
    SIZES = 4,
    SETS = 7,
    SHARES = 8,
    HEADING = 4 /* the season's column that is a circle */
};

static const uint32_t sizes[SIZES] = { 1000, 10000, 100000, 1048576 };
static const struct {
    bool season;
    uint32_t c, circles;
} sets[SETS] = { { true, 4, 0 }, { true, 6, 0 }, { true, 16, 0 }, { true, 6, 1u << HEADING }, { false, 4, 0 }, { false, 6, 0 }, { false, 16, 0 } };
static const uint32_t shares[SHARES][2] = { { 2, 1024 }, { 4, 1024 }, { 8, 32 }, { 16, 32 }, { 16, 64 }, { 16, 128 }, { 16, 256 }, { 32, 128 } };
static const uint32_t share_sizes[2] = { 100000, 500000 };

/* The calls of an archive. */
struct library {
    __typeof__(bourascul_build) *build;
    __typeof__(bourascul_check) *check;
    __typeof__(bourascul_write) *write;
    __typeof__(bourascul_read) *read;
    __typeof__(bourascul_radius) *radius;
    __typeof__(bourascul_nearest) *nearest;
};

static const struct library own = { bourascul_build, bourascul_check, bourascul_write, bourascul_read, bourascul_radius, bourascul_nearest };

#ifdef BENCH_OTHER
extern __typeof__(bourascul_build) other_build;
extern __typeof__(bourascul_check) other_check;
extern __typeof__(bourascul_write) other_write;
extern __typeof__(bourascul_read) other_read;
extern __typeof__(bourascul_radius) other_radius;
extern __typeof__(bourascul_nearest) other_nearest;
static const struct library others = { other_build, other_check, other_write, other_read, other_radius, other_nearest };
#define OTHERS &others
#else
#define OTHERS NULL
#endif

#ifdef BENCH_SECOND
#define YARD_SECOND &plain_second
#else
#define YARD_SECOND NULL
#endif

static const struct library *const libraries[2] = { &own, OTHERS };
static const struct plain_calls *const yards[2] = { &plain_first, YARD_SECOND };

/* One table with all that a call can be lent. What a call writes comes twice, to be compared: the library's, and another's. */
struct set {
    struct line *line;
    struct plain_table table;
    uint16_t *columns, query[QUERIES][16];
    uint32_t *room[2], *work, *withdrawn, rows[2][WANTED], distances[2][WANTED];
    uint8_t *how[2], *image[2];
};

static bool all_same = true;

const char *bench_compiler(int k)
{
    return yards[k] == NULL ? NULL : yards[k]->compiler;
}

double bench_now(void)
{
    struct timespec t;
    clock_gettime(CLOCK_PROCESS_CPUTIME_ID, &t);
    return 1e6 * (double)t.tv_sec + 1e-3 * (double)t.tv_nsec;
}

static void *must(void *p)
{
    if (p == NULL) {
        fputs("bench: out of memory\n", stderr);
        exit(2);
    }
    return p;
}

void bench_agree(bool same, const char *what)
{
    if (!same)
        printf("DIFFERENCE: %s\n", what);
    all_same = all_same && same;
}

/* ---- Tables ---- */

/* Sixteen columns of a season: this minute's six, those of the minute before, and four of the one before that. */
static void fill_season(struct set *s)
{
    uint32_t n = s->table.n, c = s->table.c;
    struct minute *minutes = must(malloc(((size_t)n + 2) * sizeof *minutes));
    make_minutes(384, (size_t)n + 2, minutes);
    for (uint32_t i = 0; i < n; i++)
        for (uint32_t j = 0; j < c; j++)
            s->columns[(size_t)i * c + j] = minutes[i + 2 - j / MINUTE_COLUMNS].column[j % MINUTE_COLUMNS];
    free(minutes);
}

static void fill_uniform(struct set *s)
{
    struct draw d = { 384 };
    for (size_t i = 0; i < (size_t)s->table.n * s->table.c; i++)
        s->columns[i] = (uint16_t)draw_next(&d);
}

/* Queries are rows of the table a little moved. */
static void draw_queries(struct set *s)
{
    struct draw d = { 19 };
    for (uint32_t q = 0; q < QUERIES; q++) {
        uint32_t row = draw_below(&d, s->table.n);
        for (uint32_t j = 0; j < s->table.c; j++) {
            uint32_t moved = s->columns[(size_t)row * s->table.c + j] + draw_below(&d, 9);
            s->query[q][j] = (uint16_t)((s->table.circles >> j & 1) != 0 ? moved % BOURASCUL_CIRCLE : moved > 65535 ? 65535 : moved);
        }
    }
}

static int by_size(const void *a, const void *b)
{
    uint32_t x = *(const uint32_t *)a, y = *(const uint32_t *)b;
    return (x > y) - (x < y);
}

static uint32_t choose_r(struct set *s)
{
    uint32_t far[15], rows[NEIGHBOUR], distances[NEIGHBOUR];
    for (uint32_t q = 0; q < 15; q++) {
        plain_first.scan_nearest(s->table, s->query[q], NEIGHBOUR, rows, distances);
        far[q] = distances[NEIGHBOUR - 1];
    }
    qsort(far, 15, sizeof *far, by_size);
    return far[7];
}

void *bench_touched(size_t bytes, int by)
{
    return memset(must(malloc(bytes)), by, bytes);
}

static struct set make_set(struct line *l)
{
    size_t words = BOURASCUL_ROOM_WORDS(l->n);
    struct set s;
    memset(&s, 0, sizeof s);
    s.line = l;
    s.columns = must(malloc((size_t)l->n * l->c * sizeof *s.columns));
    s.table = (struct plain_table){ s.columns, l->n, l->c, l->circles };
    if (l->season)
        fill_season(&s);
    else
        fill_uniform(&s);
    for (int k = 0; k < 2; k++) {
        s.room[k] = bench_touched(words * sizeof(uint32_t), k + 1);
        s.image[k] = bench_touched(BOURASCUL_BLOCKS(words) * BOURASCUL_BLOCK_BYTES, k + 1);
        s.how[k] = bench_touched(l->n, k + 1);
    }
    s.work = bench_touched(BOURASCUL_WORK_WORDS(l->n) * sizeof(uint32_t), 1);
    s.withdrawn = bench_touched(BOURASCUL_SET_WORDS(l->n) * sizeof(uint32_t), 0);
    draw_queries(&s);
    l->r = choose_r(&s);
    return s;
}

static void free_set(struct set *s)
{
    for (int k = 0; k < 2; k++) {
        free(s->room[k]);
        free(s->image[k]);
        free(s->how[k]);
    }
    free(s->work);
    free(s->withdrawn);
    free(s->columns);
}

/* ---- One call of each kind, by each way ---- */

static bool is_there(int kind, int way)
{
    switch (way) {
    case LIBRARY: return true;
    case OTHER: return libraries[1] != NULL && kind < SHAPE;
    case FIRST: return kind < SHAPE;
    case SECOND: return yards[1] != NULL && kind < SHAPE;
    case SCAN_FIRST: return kind == RADIUS || kind == NEAREST;
    default: return yards[1] != NULL && (kind == RADIUS || kind == NEAREST);
    }
}

/* What a call gives back: of a search, how many were found and measured; else how many words or blocks, or the number of a refusal. */
struct gives {
    size_t one, two;
};

static size_t blocks_of(const struct set *s)
{
    return BOURASCUL_BLOCKS(s->line->words);
}

/* The library's own calls write to `k` = 0, another's to 1. An image is read from the library's, always to the second room. */
static struct gives by_library(struct set *s, const struct library *by, int kind, uint32_t q, int k)
{
    const struct line *l = s->line;
    size_t length = (size_t)l->n * l->c, room = BOURASCUL_ROOM_WORDS(l->n), work = BOURASCUL_WORK_WORDS(l->n);
    bourascul_built built;
    bourascul_within within;
    bourascul_closest closest;
    switch (kind) {
    case BUILD:
        built = by->build(s->columns, length, l->c, l->m, l->l, l->circles, EDITION, s->room[k], room, s->work, work);
        return (struct gives){ built.words, built.number };
    case CHECK: return (struct gives){ by->check(s->columns, length, l->c, s->room[0], l->words, s->work, work).number, 0 };
    case WRITE: return (struct gives){ by->write(s->room[0], l->words, s->image[k], blocks_of(s) * BOURASCUL_BLOCK_BYTES).blocks, 0 };
    case READ: return (struct gives){ by->read(s->image[0], blocks_of(s) * BOURASCUL_BLOCK_BYTES, s->columns, length, l->c, s->room[1], room).words, 0 };
    case RADIUS:
        within = by->radius(s->columns, length, l->c, s->room[0], l->words, s->query[q], l->c, l->r, s->withdrawn,
                            BOURASCUL_SET_WORDS(l->n), s->how[k], l->n);
        return (struct gives){ within.inside, within.measured };
    case NEAREST:
        closest = by->nearest(s->columns, length, l->c, s->room[0], l->words, s->query[q], l->c, WANTED, s->withdrawn,
                              BOURASCUL_SET_WORDS(l->n), s->rows[k], WANTED, s->distances[k], WANTED, s->how[k], l->n, s->work, work);
        return (struct gives){ closest.given, closest.measured };
    case CLEAR_BYTES: memset(s->how[1], 0, l->n); break;
    case CLEAR_WORDS: memset(s->work, 0, work * sizeof *s->work); break;
    /* A listing tests header and shape as a search does and then only reads two words. */
    default: bourascul_list(s->room[0], l->words, 0); break;
    }
    return (struct gives){ 0, 0 };
}

static struct gives by_plain(struct set *s, const struct plain_calls *by, int kind, uint32_t q)
{
    const struct line *l = s->line;
    struct plain_counts counts;
    switch (kind) {
    case BUILD: return (struct gives){ by->build(s->table, l->m, l->l, s->room[1], s->work), 0 };
    case CHECK: return (struct gives){ by->check(s->table, s->room[0], s->work).number, 0 };
    case WRITE: return (struct gives){ by->write(s->room[0], s->image[1]), 0 };
    case READ: return (struct gives){ by->read(s->table, s->image[0], blocks_of(s), s->room[1]), 0 };
    case RADIUS: counts = by->radius(s->table, s->room[0], s->query[q], l->r, s->withdrawn, s->how[1]); break;
    default: counts = by->nearest(s->table, s->room[0], s->query[q], WANTED, s->withdrawn, s->rows[1], s->distances[1], s->how[1], s->work);
    }
    return (struct gives){ counts.found, counts.measured };
}

static struct gives by_scan(struct set *s, const struct plain_calls *by, int kind, uint32_t q)
{
    if (kind == RADIUS)
        return (struct gives){ by->scan_radius(s->table, s->query[q], s->line->r, s->how[1]), 0 };
    return (struct gives){ by->scan_nearest(s->table, s->query[q], WANTED, s->rows[1], s->distances[1]), 0 };
}

static struct gives run(struct set *s, int kind, int way, uint32_t q)
{
    if (way >= SCAN_FIRST)
        return by_scan(s, yards[way - SCAN_FIRST], kind, q);
    if (way >= FIRST)
        return by_plain(s, yards[way - FIRST], kind, q);
    return by_library(s, libraries[way], kind, q, way);
}

/* ---- Outcomes ---- */

static bool same_bytes(int kind, const struct set *s, bool scan)
{
    const struct line *l = s->line;
    switch (kind) {
    case BUILD:
    case READ: return memcmp(s->room[0], s->room[1], l->words * sizeof(uint32_t)) == 0;
    case WRITE: return memcmp(s->image[0], s->image[1], blocks_of(s) * BOURASCUL_BLOCK_BYTES) == 0;
    case RADIUS: return scan || memcmp(s->how[0], s->how[1], l->n) == 0;
    case NEAREST:
        return memcmp(s->rows[0], s->rows[1], sizeof s->rows[0]) == 0 && memcmp(s->distances[0], s->distances[1], sizeof s->distances[0]) == 0 &&
               (scan || memcmp(s->how[0], s->how[1], l->n) == 0);
    default: return true;
    }
}

/* One call by every way, held to the library's, whose outcome it gives. */
static struct gives compare(struct set *s, int kind, uint32_t q)
{
    static const char *const names[SHAPE] = { "build", "check", "write", "read", "radius", "nearest" };
    struct gives ours = run(s, kind, LIBRARY, q);
    if (kind == BUILD)
        s->line->words = (uint32_t)ours.one;
    for (int way = LIBRARY; way < WAYS; way++) {
        if (!is_there(kind, way) || (way == LIBRARY && kind != READ))
            continue;
        bool scan = way >= SCAN_FIRST;
        if (kind == BUILD || kind == READ)
            memset(s->room[1], 0xff, BOURASCUL_ROOM_WORDS(s->line->n) * sizeof(uint32_t));
        struct gives theirs = run(s, kind, way, q);
        bench_agree(ours.one == theirs.one && (scan || ours.two == theirs.two) && same_bytes(kind, s, scan), names[kind]);
    }
    return ours;
}

/* The index, its image, and every query, each by every way; gives the means of the counts. */
static void compare_all(struct set *s)
{
    struct line *l = s->line;
    bench_agree(compare(s, BUILD, 0).two == 0, "build refused");
    bench_agree(compare(s, CHECK, 0).one == 0, "check refused");
    compare(s, WRITE, 0);
    compare(s, READ, 0);
    for (uint32_t q = 0; q < QUERIES; q++) {
        struct gives in = compare(s, RADIUS, q), close = compare(s, NEAREST, q);
        l->inside += (double)in.one / QUERIES;
        l->radius_measured += (double)in.two / QUERIES;
        l->nearest_measured += (double)close.two / QUERIES;
    }
}

/* ---- Times ---- */

/* How many calls a pass has: one of what takes long, so many of an image that a pass is not too short, every query. */
static uint32_t calls_of(int kind, uint32_t n)
{
    if (kind <= CHECK)
        return 1;
    if (kind <= READ)
        return 1 + 200000 / n;
    return n > 500000 ? QUERIES / 3 : QUERIES;
}

/* The mean of one pass, where it is less than the least so far. A call before it takes what the way before left in the caches. */
static void time_pass(struct set *s, int kind, int way)
{
    double *best = &s->line->took[kind][way];
    uint32_t calls = calls_of(kind, s->table.n);
    if (kind > CHECK)
        run(s, kind, way, 0);
    double begin = bench_now();
    for (uint32_t q = 0; q < calls; q++)
        run(s, kind, way, q % QUERIES);
    double mean = (bench_now() - begin) / calls;
    *best = *best == 0 || mean < *best ? mean : *best;
}

/* The least mean over several passes of every kind by every way. They take turns, each time another way first, so that a busy moment, or the memory
   that the kind before left, hits none of them always. */
static void time_kinds(struct set *s)
{
    int passes = s->table.n > 500000 ? 4 : s->table.n > 50000 ? 8 : 30;
    for (int pass = 0; pass < passes; pass++)
        for (int kind = 0; kind < KINDS; kind++)
            for (int turn = 0; turn < WAYS; turn++) {
                int way = (pass + turn) % WAYS;
                if (is_there(kind, way))
                    time_pass(s, kind, way);
            }
}

static void time_line(struct line *l)
{
    fprintf(stderr, "bench: %s, %u columns, %u rows\n", bench_data(l), l->c, l->n);
    struct set s = make_set(l);
    compare_all(&s);
    time_kinds(&s);
    free_set(&s);
}

/* Builds and single searches of the library over one season, by m and l, which take turns. */
static void time_shares(struct line *lines, uint32_t n)
{
    for (size_t i = 0; i < SHARES; i++)
        lines[i] = (struct line){ .season = true, .c = MINUTE_COLUMNS, .n = n, .m = shares[i][0], .l = shares[i][1] };
    fprintf(stderr, "bench: shares, %u rows\n", n);
    struct set s = make_set(&lines[0]);
    for (int pass = 0; pass < 5; pass++)
        for (size_t i = 0; i < SHARES; i++) {
            s.line = &lines[i];
            s.line->r = lines[0].r;
            if (pass == 0)
                compare_all(&s);
            time_pass(&s, BUILD, LIBRARY);
            time_pass(&s, RADIUS, LIBRARY);
            time_pass(&s, NEAREST, LIBRARY);
        }
    free_set(&s);
}

/* ---- Runs ---- */

static bool tables(const char *path, uint32_t most)
{
    static struct line lines[SETS * SIZES];
    size_t each = 0, made = 0;
    while (each < SIZES && sizes[each] <= most)
        each++;
    for (size_t k = 0; k < SETS; k++)
        for (size_t i = 0; i < each; i++, made++) {
            lines[made] = (struct line){ .season = sets[k].season, .c = sets[k].c, .n = sizes[i], .m = CENTRES, .l = LEAF,
                                         .circles = sets[k].circles };
            time_line(&lines[made]);
        }
    bench_tell(lines, made, each);
    return bench_plot(path, lines, made, each);
}

static void tell_shares(uint32_t most)
{
    static struct line lines[2 * SHARES];
    size_t made = 0;
    for (size_t i = 0; i < 2 && share_sizes[i] <= most; i++, made += SHARES)
        time_shares(lines + made, share_sizes[i]);
    bench_tell_shares(lines, made);
}

int main(int count, char **word)
{
    uint32_t most = count > 2 ? (uint32_t)strtoul(word[2], NULL, 10) : sizes[SIZES - 1];
    if (count < 2 || count > 3 || most < sizes[0]) {
        fputs("usage: bench PLOT.svg [MOST_ROWS]    (MOST_ROWS at least 1000)\n       bench --shares [MOST_ROWS]\n       bench --append [MOST_ROWS]\n",
              stderr);
        return 2;
    }
    if (strcmp(word[1], "--shares") == 0) {
        tell_shares(most);
    } else if (strcmp(word[1], "--append") == 0) {
        bench_append(most);
    } else if (!tables(word[1], most)) {
        perror("bench");
        return 2;
    }
    return all_same ? 0 : 1;
}
