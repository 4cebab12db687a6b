/* A small plot over table sizes, written as SVG with nothing but stdio. */
#ifndef HOST_PLOT_H
#define HOST_PLOT_H

#include <stddef.h>

enum {
    PLOT_SIZES = 8,
    PLOT_LINES = 7
};

/* Microseconds, or percent. */
enum plot_unit {
    PLOT_TIME,
    PLOT_SHARE
};

/* Both axes go by powers of ten. The first line is drawn last, so that it is on top. */
struct plot_panel {
    char title[64];
    enum plot_unit unit;
    size_t sizes, lines;
    double rows[PLOT_SIZES];
    struct {
        char name[32];
        double at[PLOT_SIZES];
    } line[PLOT_LINES];
};

/* 1 where the file was written. */
int plot_write(const char *path, const struct plot_panel *panels, size_t count);

#endif
