/* Draws how many refill minutes, and how many others, are within a distance of one refill minute, over six columns and over four:
     refills SEASON.csv TRUTH.csv > docs/refills.svg */
#include <stdio.h>
#include <stdlib.h>
#include <string.h>

enum { COLUMNS = 6, MOST = 65536, ASKED = 1046, WIDE = 380, HIGH = 220, LEFT = 60, TOP = 50 };

static unsigned minute[MOST][COLUMNS];
static int refill[MOST];
static size_t rows;

static void stop(const char *why)
{
    fprintf(stderr, "refills: %s\n", why);
    exit(2);
}

static void read_season(const char *path)
{
    FILE *f = fopen(path, "r");
    char line[256];
    if (f == NULL || fgets(line, sizeof line, f) == NULL)
        stop("no season");
    for (; rows < MOST && fgets(line, sizeof line, f) != NULL; rows++) {
        unsigned *m = minute[rows];
        if (sscanf(line, "%u,%u,%u,%u,%u,%u", m, m + 1, m + 2, m + 3, m + 4, m + 5) != COLUMNS)
            stop("a row of the season");
    }
    fclose(f);
}

static void read_truth(const char *path)
{
    FILE *f = fopen(path, "r");
    char line[256];
    if (f == NULL || fgets(line, sizeof line, f) == NULL)
        stop("no truth");
    for (size_t i = 0; i < rows && fgets(line, sizeof line, f) != NULL; i++)
        refill[i] = strstr(line, "refilling") != NULL;
    fclose(f);
}

static unsigned distance(size_t i, const int *counts)
{
    unsigned sum = 0;
    for (int j = 0; j < COLUMNS; j++)
        if (counts[j])
            sum += minute[i][j] > minute[ASKED][j] ? minute[i][j] - minute[ASKED][j] : minute[ASKED][j] - minute[i][j];
    return sum;
}

/* How many minutes, refills or others, are within r. */
static size_t within(unsigned r, const int *counts, int which)
{
    size_t found = 0;
    for (size_t i = 0; i < rows; i++)
        found += refill[i] == which && distance(i, counts) <= r;
    return found;
}

static void draw_line(int x, const int *counts, unsigned step, int which, const char *colour)
{
    printf("<polyline fill=\"none\" stroke=\"%s\" stroke-width=\"2\" points=\"", colour);
    for (int k = 0; k <= 60; k++) {
        size_t found = within(step * (unsigned)k, counts, which);
        printf("%d,%d ", x + k * WIDE / 60, TOP + HIGH - (int)(found > 260 ? 260 : found) * HIGH / 260);
    }
    puts("\"/>");
}

static void draw_panel(int x, const char *title, const int *counts, unsigned step)
{
    printf("<text x=\"%d\" y=\"%d\" font-size=\"14\">%s</text>\n", x, TOP - 18, title);
    printf("<rect x=\"%d\" y=\"%d\" width=\"%d\" height=\"%d\" fill=\"none\" stroke=\"#999\"/>\n", x, TOP, WIDE, HIGH);
    for (int n = 0; n <= 260; n += 130)
        printf("<text x=\"%d\" y=\"%d\" text-anchor=\"end\">%d</text>\n", x - 6, TOP + HIGH - n * HIGH / 260 + 4, n);
    for (int k = 0; k <= 60; k += 20)
        printf("<text x=\"%d\" y=\"%d\" text-anchor=\"middle\">%u</text>\n", x + k * WIDE / 60, TOP + HIGH + 18, step * (unsigned)k);
    draw_line(x, counts, step, 0, "#c33");
    draw_line(x, counts, step, 1, "#137");
    printf("<text x=\"%d\" y=\"%d\" text-anchor=\"middle\">distance from row %d</text>\n", x + WIDE / 2, TOP + HIGH + 38, ASKED);
}

int main(int count, char **word)
{
    static const int six[COLUMNS] = { 1, 1, 1, 1, 1, 1 }, four[COLUMNS] = { 1, 1, 0, 1, 0, 1 };
    if (count != 3)
        stop("usage: refills SEASON.csv TRUTH.csv");
    read_season(word[1]);
    read_truth(word[2]);
    printf("<svg xmlns=\"http://www.w3.org/2000/svg\" width=\"%d\" height=\"%d\" font-family=\"sans-serif\" font-size=\"12\">\n", 2 * (WIDE + LEFT) + 40, TOP + HIGH + 60);
    puts("<rect width=\"100%\" height=\"100%\" fill=\"#fff\"/>");
    draw_panel(LEFT, "six columns: refills (blue, 130 in all) and other minutes (red)", six, 50);
    draw_panel(2 * LEFT + WIDE, "speed, shaft turns, fan pressure, tender distance", four, 1);
    puts("</svg>");
    return 0;
}
