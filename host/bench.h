/* What the bench's files share: what is timed, by whom, and what came out. */
#ifndef HOST_BENCH_H
#define HOST_BENCH_H

#include <stdbool.h>
#include <stddef.h>
#include <stdint.h>

enum {
    CENTRES = 16,
    LEAF = 128,
    WANTED = 10,
    NEIGHBOUR = 20 /* r is the median distance of this neighbour */
};

/* Who works: the library; another archive of it, where one was named to host/build.sh; plain C from one compiler or two, and their scans. */
enum way {
    LIBRARY,
    OTHER,
    FIRST,
    SECOND,
    SCAN_FIRST,
    SCAN_SECOND,
    WAYS
};

/* What is timed. The last three are what every search does, whatever it finds: the shape test, and the clearing of how-bytes and workspace. */
enum kind {
    BUILD,
    CHECK,
    WRITE,
    READ,
    RADIUS,
    NEAREST,
    SHAPE,
    CLEAR_BYTES,
    CLEAR_WORDS,
    KINDS
};

/* One table's outcome: microseconds a call, by kind and way (0: not there), and the means of the counts. */
struct line {
    bool season;
    uint32_t c, n, m, l, circles, r, words;
    double took[KINDS][WAYS], inside, radius_measured, nearest_measured;
};

/* Microseconds of processor time. */
double bench_now(void);

/* Memory that has been touched, filled with this byte; the bench ends where there is none. */
void *bench_touched(size_t bytes, int by);

/* Tells a difference where two outcomes are not the same; the exit status is 1 then. */
void bench_agree(bool same, const char *what);

/* The yardstick's first or second compiler; NULL where there is no second. */
const char *bench_compiler(int k);

/* The lesser time of the two compilers' plain C or, from SCAN_FIRST on, scans. */
double bench_better(const double *took, enum way first);

const char *bench_data(const struct line *l);

/* Appends timed beside builds, told as Markdown. */
void bench_append(uint32_t most);

/* Markdown. Lines come table by table, each with its sizes, of which there are `each`. */
void bench_tell(const struct line *lines, size_t count, size_t each);
void bench_tell_shares(const struct line *lines, size_t count);

/* false where the file could not be written. */
bool bench_plot(const char *path, const struct line *lines, size_t count, size_t each);

#endif
