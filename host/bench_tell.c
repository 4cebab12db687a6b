/* The bench's tables and its plot. */
#include "bench.h"

#include <stdio.h>
#include <string.h>

#include "plot.h"

const char *bench_data(const struct line *l)
{
    return l->circles != 0 ? "season, heading a circle" : l->season ? "season" : "uniform";
}

double bench_better(const double *took, enum way first)
{
    return took[first + 1] != 0 && took[first + 1] < took[first] ? took[first + 1] : took[first];
}

/* ---- Tables ---- */

/* A table's head: the words given, each a column. */
static void tell_head(const char *words)
{
    printf("\n| %s |\n|", words);
    for (const char *at = words; at != NULL; at = strchr(at + 1, '|'))
        fputs("---|", stdout);
    puts("");
}

/* The columns of tell_ways. */
static const char *ways_head(const char *of)
{
    static char text[4][96];
    static int next = 0;
    char *to = text[next++ % 4];
    if (bench_compiler(1) == NULL)
        snprintf(to, sizeof text[0], "%s | %s | ratio", of, bench_compiler(0));
    else
        snprintf(to, sizeof text[0], "%s | %s | %s | ratio", of, bench_compiler(0), bench_compiler(1));
    return to;
}

/* Library and plain C from each compiler, in so many digits, and the library's time over the better of these. */
static void tell_ways(const double *took, double unit, int digits)
{
    printf(" %.*f | %.*f |", digits, took[LIBRARY] / unit, digits, took[FIRST] / unit);
    if (bench_compiler(1) != NULL)
        printf(" %.*f |", digits, took[SECOND] / unit);
    printf(" %.2f |", took[LIBRARY] / bench_better(took, FIRST));
}

static void tell_table(const struct line *l)
{
    printf("| %s | %u | %u |", bench_data(l), l->c, l->n);
}

static void tell_builds(const struct line *lines, size_t count)
{
    char head[256];
    printf("Build and check, milliseconds; m = %u, l = %u. Ratio: the library's time over the better plain C's.\n", lines->m, lines->l);
    snprintf(head, sizeof head, "data | c | rows | %s | %s", ways_head("build"), ways_head("check"));
    tell_head(head);
    for (size_t i = 0; i < count; i++) {
        tell_table(&lines[i]);
        tell_ways(lines[i].took[BUILD], 1e3, 2);
        tell_ways(lines[i].took[CHECK], 1e3, 2);
        puts("");
    }
}

/* Gigabytes a second: bytes in a microsecond, over 1,000. */
static void tell_rates(const struct line *l, enum kind kind)
{
    double bytes = 512.0 * ((l->words + 126) / 127), rate[WAYS];
    for (int way = 0; way < WAYS; way++)
        rate[way] = l->took[kind][way] == 0 ? 0 : bytes / l->took[kind][way] / 1e3;
    printf(" %.2f | %.2f |", rate[LIBRARY], rate[FIRST]);
    if (bench_compiler(1) != NULL)
        printf(" %.2f |", rate[SECOND]);
    printf(" %.2f |", l->took[kind][LIBRARY] / bench_better(l->took[kind], FIRST));
}

static void tell_images(const struct line *lines, size_t count)
{
    char head[256];
    puts("\nImage, gigabytes a second. Ratio: the library's time over the better plain C's.");
    snprintf(head, sizeof head, "data | c | rows | kilobytes | %s | %s", ways_head("write"), ways_head("read"));
    tell_head(head);
    for (size_t i = 0; i < count; i++) {
        tell_table(&lines[i]);
        printf(" %.0f |", 0.512 * ((lines[i].words + 126) / 127));
        tell_rates(&lines[i], WRITE);
        tell_rates(&lines[i], READ);
        puts("");
    }
}

static void tell_searches(const struct line *lines, size_t count, enum kind kind)
{
    char head[256];
    snprintf(head, sizeof head, "data | c | rows | %s | scan | scan / library | shape | clearing", ways_head(kind == RADIUS ? "radius" : "nearest"));
    tell_head(head);
    for (size_t i = 0; i < count; i++) {
        const double *took = lines[i].took[kind], scan = bench_better(took, SCAN_FIRST);
        double cleared = lines[i].took[CLEAR_BYTES][LIBRARY] + (kind == NEAREST ? lines[i].took[CLEAR_WORDS][LIBRARY] : 0);
        tell_table(&lines[i]);
        tell_ways(took, 1, 1);
        printf(" %.1f | %.2f | %.0f%% | %.1f%% |\n", scan, scan / took[LIBRARY], 100 * lines[i].took[SHAPE][LIBRARY] / took[LIBRARY],
               100 * cleared / took[LIBRARY]);
    }
}

static double measured(const struct line *l, enum kind kind)
{
    return kind == RADIUS ? l->radius_measured : l->nearest_measured;
}

/* One line a table and search, with a column a size. */
static void tell_measured(const struct line *lines, size_t count, size_t each)
{
    char head[256];
    size_t at = (size_t)snprintf(head, sizeof head, "search | data | c");
    puts("\nRows measured of the rows there.");
    for (size_t i = 0; i < each && at < sizeof head; i++)
        at += (size_t)snprintf(head + at, sizeof head - at, " | %u", lines[i].n);
    tell_head(head);
    for (int kind = RADIUS; kind <= NEAREST; kind++)
        for (size_t set = 0; set < count; set += each) {
            printf("| %s | %s | %u |", kind == RADIUS ? "radius" : "nearest", bench_data(&lines[set]), lines[set].c);
            for (size_t i = set; i < set + each; i++)
                printf(" %.0f (%.2f%%) |", measured(&lines[i], (enum kind)kind), 100 * measured(&lines[i], (enum kind)kind) / lines[i].n);
            puts("");
        }
}

static void tell_radii(const struct line *lines, size_t count, size_t each)
{
    char head[256];
    size_t at = (size_t)snprintf(head, sizeof head, "data | c");
    printf("\nr, the median distance of the %dth neighbour, and the mean number of rows in.\n", NEIGHBOUR);
    for (size_t i = 0; i < each && at < sizeof head; i++)
        at += (size_t)snprintf(head + at, sizeof head - at, " | %u", lines[i].n);
    tell_head(head);
    for (size_t set = 0; set < count; set += each) {
        printf("| %s | %u |", bench_data(&lines[set]), lines[set].c);
        for (size_t i = set; i < set + each; i++)
            printf(" %u (%.1f) |", lines[i].r, lines[i].inside);
        puts("");
    }
}

/* Where another archive is linked: its times over the library's. */
static void tell_other(const struct line *lines, size_t count)
{
    puts("\nThe other archive's time over the library's: above 1 the library is faster.");
    tell_head("data | c | rows | build | check | radius | nearest | write | read");
    for (size_t i = 0; i < count; i++) {
        static const int kinds[SHAPE] = { BUILD, CHECK, RADIUS, NEAREST, WRITE, READ };
        tell_table(&lines[i]);
        for (size_t k = 0; k < SHAPE; k++)
            printf(" %.2f |", lines[i].took[kinds[k]][OTHER] / lines[i].took[kinds[k]][LIBRARY]);
        puts("");
    }
}

void bench_tell(const struct line *lines, size_t count, size_t each)
{
    tell_builds(lines, count);
    puts("\nRadius, microseconds a call. Shape: the share of a call that the shape test takes, timed as a listing of node 0, which does nothing\n"
         "else of weight. Clearing: that of the n how-bytes.");
    tell_searches(lines, count, RADIUS);
    printf("\nNearest, %d wanted, microseconds a call. Shape as above; clearing: that of the n how-bytes and of the 6n words.\n", WANTED);
    tell_searches(lines, count, NEAREST);
    tell_images(lines, count);
    tell_measured(lines, count, each);
    tell_radii(lines, count, each);
    if (lines->took[BUILD][OTHER] != 0)
        tell_other(lines, count);
}

void bench_tell_shares(const struct line *lines, size_t count)
{
    puts("Single calls over a season of six columns by m and l: build in milliseconds, searches in microseconds.");
    tell_head("rows | m | l | build | radius | measured | nearest | measured | index words a row");
    for (size_t i = 0; i < count; i++) {
        const struct line *l = &lines[i];
        printf("| %u | %u | %u | %.1f | %.1f | %.1f | %.1f | %.1f | %.2f |\n", l->n, l->m, l->l, l->took[BUILD][LIBRARY] / 1e3,
               l->took[RADIUS][LIBRARY], l->radius_measured, l->took[NEAREST][LIBRARY], l->nearest_measured, (double)l->words / l->n);
    }
}

/* ---- The plot ---- */

/* The times of a search over one table: the library, the better plain C and the better scan. */
static void plot_times(struct plot_panel *p, const struct line *first, size_t each, enum kind kind)
{
    static const char *const names[3] = { "library", "plain C", "scan" };
    snprintf(p->title, sizeof p->title, "%s, %s, %u columns", kind == RADIUS ? "radius" : "nearest", bench_data(first), first->c);
    p->unit = PLOT_TIME;
    p->sizes = each;
    p->lines = 3;
    for (size_t i = 0; i < each; i++) {
        const double *took = first[i].took[kind], of[3] = { took[LIBRARY], bench_better(took, FIRST), bench_better(took, SCAN_FIRST) };
        p->rows[i] = first[i].n;
        for (size_t k = 0; k < 3; k++)
            p->line[k].at[i] = of[k];
    }
    for (size_t k = 0; k < 3; k++)
        snprintf(p->line[k].name, sizeof p->line[k].name, "%s", names[k]);
}

/* The share of the rows that a search measures, a line a table. */
static void plot_shares(struct plot_panel *p, const struct line *lines, size_t count, size_t each, enum kind kind)
{
    snprintf(p->title, sizeof p->title, "%s: rows measured of rows there", kind == RADIUS ? "radius" : "nearest");
    p->unit = PLOT_SHARE;
    p->sizes = each;
    p->lines = count / each;
    for (size_t k = 0; k < p->lines; k++) {
        const struct line *first = lines + k * each;
        snprintf(p->line[k].name, sizeof p->line[k].name, "%s %u", bench_data(first), first->c);
        for (size_t i = 0; i < each; i++) {
            p->rows[i] = first[i].n;
            p->line[k].at[i] = 100 * measured(&first[i], kind) / first[i].n;
        }
    }
}

/* Radius on the left, nearest on the right: the season's six columns, sixteen uniform ones, and what is measured of all. */
bool bench_plot(const char *path, const struct line *lines, size_t count, size_t each)
{
    static struct plot_panel panels[6];
    memset(panels, 0, sizeof panels);
    for (size_t p = 0; p < 6; p++) {
        enum kind kind = p % 2 == 0 ? RADIUS : NEAREST;
        if (p < 4)
            plot_times(&panels[p], lines + (p < 2 ? 1 : count / each - 1) * each, each, kind);
        else
            plot_shares(&panels[p], lines, count, each, kind);
    }
    return plot_write(path, panels, 6) != 0;
}
