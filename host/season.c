/* Writes a made-up season as CSV, with what each minute truly was in a second file:
     season ROWS SEASON.csv TRUTH.csv [SEED] */
#include <stdio.h>
#include <stdlib.h>

#include "minutes.h"

enum {
    MOST = 1048576
};

static int write_season(const char *path, const struct minute *minutes, size_t count)
{
    FILE *f = fopen(path, "w");
    if (f == NULL)
        return 0;
    for (int j = 0; j < MINUTE_COLUMNS; j++)
        fprintf(f, "%s%c", minute_names[j], j + 1 < MINUTE_COLUMNS ? ',' : '\n');
    for (size_t i = 0; i < count; i++)
        for (int j = 0; j < MINUTE_COLUMNS; j++)
            fprintf(f, "%u%c", minutes[i].column[j], j + 1 < MINUTE_COLUMNS ? ',' : '\n');
    return fclose(f) == 0;
}

static int write_truth(const char *path, const struct minute *minutes, size_t count)
{
    FILE *f = fopen(path, "w");
    if (f == NULL)
        return 0;
    fputs("row,activity,name\n", f);
    for (size_t i = 0; i < count; i++)
        fprintf(f, "%zu,%d,%s\n", i, (int)minutes[i].activity, activity_names[minutes[i].activity]);
    return fclose(f) == 0;
}

int main(int count, char **word)
{
    size_t rows = count > 1 ? strtoull(word[1], NULL, 10) : 0;
    if ((count != 4 && count != 5) || rows == 0 || rows > MOST) {
        fputs("usage: season ROWS SEASON.csv TRUTH.csv [SEED]    (ROWS from 1 to 1048576)\n", stderr);
        return 2;
    }
    struct minute *minutes = malloc(rows * sizeof *minutes);
    if (minutes == NULL) {
        fputs("season: out of memory\n", stderr);
        return 2;
    }
    make_minutes(count == 5 ? strtoull(word[4], NULL, 10) : 384, rows, minutes);
    int done = write_season(word[2], minutes, rows) && write_truth(word[3], minutes, rows);
    free(minutes);
    if (!done)
        perror("season");
    return done ? 0 : 1;
}
