/* 02's R-2 for a night's rows: every row of the table that the index has not goes into it, one after the other. */
#include "naive_inner.h"

/* The index is to be that of the table's first rows, as many as its header says, and the table to have at least one more. */
static struct faults night_faults(struct naive_table table, struct naive_index index, struct naive_room room, struct naive_room work)
{
    struct faults f = naive_table_faults(table);
    size_t n = naive_rows_of(table), had = index.length > 1 ? index.words[1] : 0;
    struct naive_table before = { table.columns, had * table.c, table.c };
    f.met[5] = room.length < 12 * n + 8 || work.length < 6 * n;
    naive_index_faults(&f, index, before);
    f.met[8] = f.met[8] || n <= had;
    naive_circle_fault(&f, index, table, (struct naive_query){ NULL, 0 });
    return f;
}

/* Into an index without rows goes the first one as an append puts it there: by the build of one row. */
static struct tree first_tree(struct naive_table table, const uint32_t *w)
{
    uint32_t words[20], work[6];
    struct naive_table one = { table.columns, table.c, table.c };
    naive_build(one, w[3], w[4], w[7], 2, (struct naive_room){ words, 20 }, (struct naive_room){ work, 6 });
    return naive_read_tree(words, table);
}

struct naive_says naive_append_rows(struct naive_table table, struct naive_index index, struct naive_room room, struct naive_room work)
{
    struct faults f = night_faults(table, index, room, work);
    const uint32_t *w = index.words;
    uint32_t n = (uint32_t)naive_rows_of(table);
    if (naive_lowest(&f) != 0)
        return says(naive_lowest(&f), 0, 0);
    struct tree t = w[1] == 0 ? first_tree(table, w) : naive_read_tree(w, table);
    for (uint32_t row = t.n; row < n; row++)
        naive_add_row(&t, row);
    uint32_t nodes = naive_put_tree(&t, room.words);
    naive_clear_work(work, n);
    naive_free_tree(&t);
    return says(0, (uint32_t)naive_words_asked(room.words), nodes);
}
