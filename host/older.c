/* The calls of a library before R-1, which knew no circles and no withdrawn rows, under the names and with the parameters of today's, for the
   bench to time beside it: what it does not know is left out. Linked by host/build.sh where BOURASCUL_OLDER names such an archive. */
#include "bourascul.h"

bourascul_built older_build(const uint16_t *table, size_t table_length, uint32_t c, uint32_t m, uint32_t l, uint32_t edition,
                            uint32_t *room, size_t room_length, uint32_t *work, size_t work_length);
bourascul_within older_radius(const uint16_t *table, size_t table_length, uint32_t c, const uint32_t *index, size_t index_length,
                              const uint16_t *query, size_t query_length, uint32_t r, uint8_t *how, size_t how_length);
bourascul_closest older_nearest(const uint16_t *table, size_t table_length, uint32_t c, const uint32_t *index, size_t index_length,
                                const uint16_t *query, size_t query_length, uint32_t w, uint32_t *rows, size_t rows_length,
                                uint32_t *distances, size_t distances_length, uint8_t *how, size_t how_length, uint32_t *work,
                                size_t work_length);

bourascul_built other_build(const uint16_t *table, size_t table_length, uint32_t c, uint32_t m, uint32_t l, uint32_t circles,
                            uint32_t edition, uint32_t *room, size_t room_length, uint32_t *work, size_t work_length) {
    (void)circles;
    return older_build(table, table_length, c, m, l, edition, room, room_length, work, work_length);
}

bourascul_within other_radius(const uint16_t *table, size_t table_length, uint32_t c, const uint32_t *index, size_t index_length,
                              const uint16_t *query, size_t query_length, uint32_t r, const uint32_t *withdrawn,
                              size_t withdrawn_length, uint8_t *how, size_t how_length) {
    (void)withdrawn;
    (void)withdrawn_length;
    return older_radius(table, table_length, c, index, index_length, query, query_length, r, how, how_length);
}

bourascul_closest other_nearest(const uint16_t *table, size_t table_length, uint32_t c, const uint32_t *index, size_t index_length,
                                const uint16_t *query, size_t query_length, uint32_t w, const uint32_t *withdrawn,
                                size_t withdrawn_length, uint32_t *rows, size_t rows_length, uint32_t *distances,
                                size_t distances_length, uint8_t *how, size_t how_length, uint32_t *work, size_t work_length) {
    (void)withdrawn;
    (void)withdrawn_length;
    return older_nearest(table, table_length, c, index, index_length, query, query_length, w, rows, rows_length, distances,
                         distances_length, how, how_length, work, work_length);
}
