/* The plot of plot.h. */
#include "plot.h"

#include <math.h>
#include <stdio.h>

enum {
    ACROSS = 2,
    WIDTH = 450,
    HEIGHT = 320,
    LEFT = 70,
    TOP = 76,
    RIGHT = 40,
    BOTTOM = 48,
    NAMES = 3, /* to a line above a panel */
    TEXT = 14
};

static const char *const colours[PLOT_LINES] = { "#1b6e3c", "#3b6fb6", "#b5533c", "#8a5fb0", "#c08a1e", "#2a9d9d", "#555555" };

/* A panel's corner and the powers of ten that its axes span. */
struct frame {
    double x, y, low_rows, high_rows, low, high;
};

static double place_x(const struct frame *f, double rows)
{
    return f->x + LEFT + (log10(rows) - f->low_rows) / (f->high_rows - f->low_rows) * (WIDTH - LEFT - RIGHT);
}

static double place_y(const struct frame *f, double value)
{
    return f->y + HEIGHT - BOTTOM - (log10(value) - f->low) / (f->high - f->low) * (HEIGHT - TOP - BOTTOM);
}

static struct frame frame_of(const struct plot_panel *p, size_t number)
{
    struct frame f = { (double)(number % ACROSS) * WIDTH, (double)(number / ACROSS) * HEIGHT, 9, -9, 9, -9 };
    for (size_t i = 0; i < p->sizes; i++) {
        f.low_rows = fmin(f.low_rows, floor(log10(p->rows[i])));
        f.high_rows = fmax(f.high_rows, log10(p->rows[i]));
        for (size_t k = 0; k < p->lines; k++) {
            f.low = fmin(f.low, floor(log10(p->line[k].at[i])));
            f.high = fmax(f.high, ceil(log10(p->line[k].at[i])));
        }
    }
    if (f.high_rows <= f.low_rows)
        f.high_rows = f.low_rows + 1;
    if (f.high <= f.low)
        f.high = f.low + 1;
    return f;
}

static const char *value_name(enum plot_unit unit, int power)
{
    static const char *const times[] = { "0.01 us", "0.1 us", "1 us", "10 us", "100 us", "1 ms", "10 ms", "100 ms", "1 s", "10 s", "100 s" };
    static const char *const shares[] = { "0.001%", "0.01%", "0.1%", "1%", "10%", "100%" };
    if (unit == PLOT_TIME)
        return power >= -2 && power <= 8 ? times[power + 2] : "";
    return power >= -3 && power <= 2 ? shares[power + 3] : "";
}

static const char *rows_name(int power)
{
    static const char *const names[] = { "1", "10", "100", "1,000", "10,000", "100,000", "1,000,000" };
    return power >= 0 && power <= 6 ? names[power] : "";
}

static void draw_axes(FILE *out, const struct frame *f, const struct plot_panel *p)
{
    double bottom = f->y + HEIGHT - BOTTOM, right = f->x + WIDTH - RIGHT;
    fprintf(out, "<text x='%.1f' y='%.1f' font-weight='bold'>%s</text>\n", f->x + LEFT, f->y + 20, p->title);
    for (size_t k = 0; k < p->lines; k++)
        fprintf(out, "<text x='%.1f' y='%.1f' fill='%s'>&#9632; %s</text>\n", f->x + LEFT + (double)(k % NAMES) * (WIDTH - LEFT) / NAMES,
                f->y + 42 + (double)(k / NAMES) * (TEXT + 5), colours[k], p->line[k].name);
    for (int power = (int)f->low; power <= (int)f->high; power++) {
        double y = place_y(f, pow(10, power));
        fprintf(out, "<line x1='%.1f' y1='%.1f' x2='%.1f' y2='%.1f' stroke='#ddd'/>\n", f->x + LEFT, y, right, y);
        fprintf(out, "<text x='%.1f' y='%.1f' text-anchor='end'>%s</text>\n", f->x + LEFT - 6, y + 5, value_name(p->unit, power));
    }
    for (int power = (int)f->low_rows; power <= (int)f->high_rows; power++) {
        double x = place_x(f, pow(10, power));
        fprintf(out, "<line x1='%.1f' y1='%.1f' x2='%.1f' y2='%.1f' stroke='#ddd'/>\n", x, f->y + TOP, x, bottom);
        fprintf(out, "<text x='%.1f' y='%.1f' text-anchor='middle'>%s</text>\n", x, bottom + 18, rows_name(power));
    }
    fprintf(out, "<text x='%.1f' y='%.1f' text-anchor='middle'>rows</text>\n", (f->x + LEFT + right) / 2, bottom + 36);
}

static void draw_line(FILE *out, const struct frame *f, const struct plot_panel *p, size_t k)
{
    fprintf(out, "<polyline fill='none' stroke='%s' stroke-width='%d' points='", colours[k], k == 0 ? 3 : 2);
    for (size_t i = 0; i < p->sizes; i++)
        fprintf(out, "%.1f,%.1f ", place_x(f, p->rows[i]), place_y(f, p->line[k].at[i]));
    fputs("'/>\n", out);
    for (size_t i = 0; i < p->sizes; i++)
        fprintf(out, "<circle cx='%.1f' cy='%.1f' r='3' fill='%s'/>\n", place_x(f, p->rows[i]), place_y(f, p->line[k].at[i]), colours[k]);
}

int plot_write(const char *path, const struct plot_panel *panels, size_t count)
{
    size_t down = (count + ACROSS - 1) / ACROSS;
    FILE *out = fopen(path, "w");
    if (out == NULL)
        return 0;
    fprintf(out, "<svg xmlns='http://www.w3.org/2000/svg' width='%d' height='%zu' font-family='sans-serif' font-size='%d'>\n", ACROSS * WIDTH,
            down * HEIGHT, TEXT);
    fputs("<rect width='100%' height='100%' fill='white'/>\n", out);
    for (size_t i = 0; i < count; i++) {
        struct frame f = frame_of(&panels[i], i);
        draw_axes(out, &f, &panels[i]);
        for (size_t k = panels[i].lines; k > 0; k--)
            draw_line(out, &f, &panels[i], k - 1);
    }
    fputs("</svg>\n", out);
    return fclose(out) == 0;
}
