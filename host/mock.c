/* A library in the proved one's place, to try the trial on (host/wrong.sh): the naive implementation behind the header's
   twelve calls. Only nearest is searched as the yardstick does it: the naive one scans and reckons the marks afterwards,
   which the trial of two tables finds. */
#include "bourascul.h"
#include "naive_inner.h"
#include "plain.h"

bourascul_built bourascul_build(const uint16_t *table, size_t table_length, uint32_t c, uint32_t m, uint32_t l, uint32_t circles,
                                uint32_t edition, uint32_t *room, size_t room_length, uint32_t *work, size_t work_length)
{
    struct naive_table t = { table, table_length, c };
    struct naive_room r = { room, room_length }, k = { work, work_length };
    struct naive_says s = naive_build(t, m, l, circles, edition, r, k);
    return (bourascul_built){ s.number, s.one, s.two };
}

bourascul_built bourascul_append(const uint16_t *table, size_t table_length, uint32_t c, const uint32_t *index, size_t index_length,
                                 uint32_t *room, size_t room_length, uint32_t *work, size_t work_length)
{
    struct naive_table t = { table, table_length, c };
    struct naive_index x = { index, index_length };
    struct naive_room r = { room, room_length }, k = { work, work_length };
    struct naive_says s = naive_append(t, x, r, k);
    return (bourascul_built){ s.number, s.one, s.two };
}

bourascul_built bourascul_append_rows(const uint16_t *table, size_t table_length, uint32_t c, const uint32_t *index, size_t index_length,
                                      uint32_t *room, size_t room_length, uint32_t *work, size_t work_length)
{
    struct naive_table t = { table, table_length, c };
    struct naive_index x = { index, index_length };
    struct naive_room r = { room, room_length }, k = { work, work_length };
    struct naive_says s = naive_append_rows(t, x, r, k);
    return (bourascul_built){ s.number, s.one, s.two };
}

bourascul_checked bourascul_check(const uint16_t *table, size_t table_length, uint32_t c, const uint32_t *index, size_t index_length,
                                  uint32_t *work, size_t work_length)
{
    struct naive_table t = { table, table_length, c };
    struct naive_index x = { index, index_length };
    struct naive_room k = { work, work_length };
    struct naive_says s = naive_check(t, x, k);
    return (bourascul_checked){ s.number, s.one, s.two };
}

bourascul_within bourascul_radius(const uint16_t *table, size_t table_length, uint32_t c, const uint32_t *index, size_t index_length,
                                  const uint16_t *query, size_t query_length, uint32_t r, const uint32_t *withdrawn, size_t withdrawn_length,
                                  uint8_t *how, size_t how_length)
{
    struct naive_table t = { table, table_length, c };
    struct naive_index x = { index, index_length };
    struct naive_query q = { query, query_length };
    struct naive_set gone = { withdrawn, withdrawn_length };
    struct naive_bytes h = { how, how_length };
    struct naive_says s = naive_radius(t, x, q, r, gone, h);
    return (bourascul_within){ s.number, s.one, s.two };
}

/* ---- Nearest ---- */

/* Lengths of the lent rooms; of records SIZE_MAX where the call takes none. */
struct rooms {
    size_t records, rows, distances, how, work;
};

/* The yardstick tests nothing but the shape and the circles, so the other refusals stand here. */
static uint32_t nearest_refused(struct naive_table t, struct naive_index x, struct naive_query query, uint32_t w, struct naive_set gone,
                                struct rooms lent)
{
    struct faults f = naive_table_faults(t);
    size_t n = naive_rows_of(t), asked = w < n ? w : n;
    f.met[5] = lent.records < asked || lent.rows < asked || lent.distances < asked || lent.how < n || lent.work < 6 * n;
    f.met[6] = query.length != t.c;
    f.met[7] = w == 0;
    naive_index_faults(&f, x, t);
    naive_circle_fault(&f, x, t, query);
    f.met[20] = naive_set_bad(gone, n);
    return naive_lowest(&f);
}

bourascul_closest bourascul_nearest(const uint16_t *table, size_t table_length, uint32_t c, const uint32_t *index, size_t index_length,
                                    const uint16_t *query, size_t query_length, uint32_t w, const uint32_t *withdrawn, size_t withdrawn_length,
                                    uint32_t *rows, size_t rows_length, uint32_t *distances, size_t distances_length, uint8_t *how,
                                    size_t how_length, uint32_t *work, size_t work_length)
{
    struct naive_table t = { table, table_length, c };
    struct naive_index x = { index, index_length };
    struct naive_query q = { query, query_length };
    struct naive_set gone = { withdrawn, withdrawn_length };
    uint32_t number = nearest_refused(t, x, q, w, gone, (struct rooms){ SIZE_MAX, rows_length, distances_length, how_length, work_length });
    if (number != 0)
        return (bourascul_closest){ number, 0, 0 };
    struct plain_table fair = { table, (uint32_t)naive_rows_of(t), c, index[7] };
    struct plain_counts k = plain_nearest(fair, index, query, w, withdrawn, rows, distances, how, work);
    return (bourascul_closest){ 0, k.found, k.measured };
}

bourascul_closest bourascul_nearest_answers(const uint16_t *table, size_t table_length, uint32_t c, const uint32_t *index, size_t index_length,
                                            const uint16_t *query, size_t query_length, uint32_t w, const uint32_t *withdrawn,
                                            size_t withdrawn_length, bourascul_answer *answers, size_t answers_length, uint32_t *rows,
                                            size_t rows_length, uint32_t *distances, size_t distances_length, uint8_t *how, size_t how_length,
                                            uint32_t *work, size_t work_length)
{
    struct naive_table t = { table, table_length, c };
    struct naive_index x = { index, index_length };
    struct rooms lent = { answers_length, rows_length, distances_length, how_length, work_length };
    struct naive_set gone = { withdrawn, withdrawn_length };
    uint32_t number = nearest_refused(t, x, (struct naive_query){ query, query_length }, w, gone, lent);
    if (number != 0)
        return (bourascul_closest){ number, 0, 0 };
    bourascul_closest s = bourascul_nearest(table, table_length, c, index, index_length, query, query_length, w, withdrawn, withdrawn_length, rows,
                                            rows_length, distances, distances_length, how, how_length, work, work_length);
    for (size_t i = 0; i < s.given; i++)
        answers[i] = (bourascul_answer){ rows[i], distances[i] };
    return s;
}

/* ---- Orders ---- */

uint32_t bourascul_strike(uint32_t *withdrawn, size_t withdrawn_length, uint32_t n, uint32_t row)
{
    struct naive_room set = { withdrawn, withdrawn_length };
    return naive_strike(set, n, row);
}

uint32_t bourascul_restore(uint32_t *withdrawn, size_t withdrawn_length, uint32_t n, uint32_t row)
{
    struct naive_room set = { withdrawn, withdrawn_length };
    return naive_restore(set, n, row);
}

/* ---- Image and listing ---- */

bourascul_written bourascul_write(const uint32_t *index, size_t index_length, uint8_t *image, size_t image_length)
{
    struct naive_index x = { index, index_length };
    struct naive_bytes b = { image, image_length };
    struct naive_says s = naive_write(x, b);
    return (bourascul_written){ s.number, s.one };
}

bourascul_taken bourascul_read(const uint8_t *image, size_t image_length, const uint16_t *table, size_t table_length, uint32_t c, uint32_t *room,
                               size_t room_length)
{
    struct naive_table t = { table, table_length, c };
    struct naive_room r = { room, room_length };
    struct naive_says s = naive_read(image, image_length, t, r);
    return (bourascul_taken){ s.number, s.one, s.two };
}

bourascul_part bourascul_list(const uint32_t *index, size_t index_length, uint32_t node)
{
    struct naive_index x = { index, index_length };
    struct naive_part p = naive_list(x, node);
    return (bourascul_part){ p.start, p.length };
}
