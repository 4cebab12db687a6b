/* The library beside nanoflann's k-d tree on the season, six columns, one query a call:
     field ROWS FOLDER      prints lines of the table that field.sh makes, and leaves table, queries and answers for field.py
   Both are single-threaded and take turns; times are the processor's, the least mean of several passes. The rows within r
   must be the same and so must the distances of the nearest; exit status 1 where they are not. */
#include <algorithm>
#include <cstdint>
#include <cstdio>
#include <cstdlib>
#include <ctime>
#include <fstream>
#include <functional>
#include <string>
#include <utility>
#include <vector>

#include <nanoflann.hpp>

#include "bourascul.h"
extern "C" {
#include "draw.h"
#include "minutes.h"
}

namespace {

const uint32_t columns = MINUTE_COLUMNS, queries = 60, wanted = 10, neighbour = 20, passes = 6, centres = 16, leaf = 128, edition = 2;

/* The table as nanoflann asks for it. It counts in float, which holds every distance here exactly: with whole numbers, or numbers without a sign, it would
   cut every node at the first column. */
struct Rows {
    std::vector<uint16_t> table;
    size_t kdtree_get_point_count() const { return table.size() / columns; }
    float kdtree_get_pt(size_t row, size_t column) const { return table[row * columns + column]; }
    template <class Box> bool kdtree_get_bbox(Box &) const { return false; }
};

using Tree = nanoflann::KDTreeSingleIndexAdaptor<nanoflann::L1_Adaptor<float, Rows, float>, Rows, columns, uint32_t>;

/* Everything that the library is lent. */
struct Index {
    const Rows &rows;
    std::vector<uint32_t> room, work, withdrawn, nearest, distances;
    std::vector<uint8_t> how;
    uint32_t words = 0;

    explicit Index(const Rows &lent)
        : rows(lent), room(BOURASCUL_ROOM_WORDS(count())), work(BOURASCUL_WORK_WORDS(count())), withdrawn(BOURASCUL_SET_WORDS(count())),
          nearest(neighbour), distances(neighbour), how(count())
    {
    }
    uint32_t count() const { return static_cast<uint32_t>(rows.kdtree_get_point_count()); }
    void build()
    {
        words = bourascul_build(rows.table.data(), rows.table.size(), columns, centres, leaf, 0, edition, room.data(), room.size(), work.data(),
                                work.size())
                    .words;
    }
    bourascul_within within(const uint16_t *query, uint32_t r)
    {
        return bourascul_radius(rows.table.data(), rows.table.size(), columns, room.data(), words, query, columns, r, withdrawn.data(),
                                withdrawn.size(), how.data(), how.size());
    }
    bourascul_closest closest(const uint16_t *query, uint32_t w)
    {
        return bourascul_nearest(rows.table.data(), rows.table.size(), columns, room.data(), words, query, columns, w, withdrawn.data(),
                                 withdrawn.size(), nearest.data(), nearest.size(), distances.data(), distances.size(), how.data(),
                                 how.size(), work.data(), work.size());
    }
};

Rows season(uint32_t n)
{
    std::vector<minute> minutes(n);
    make_minutes(384, n, minutes.data());
    Rows rows;
    for (const minute &m : minutes)
        rows.table.insert(rows.table.end(), m.column, m.column + columns);
    return rows;
}

/* Rows of the table a little moved. */
std::vector<uint16_t> draw_queries(const Rows &rows)
{
    draw d = { 19 };
    std::vector<uint16_t> drawn;
    for (uint32_t q = 0; q < queries; q++) {
        uint32_t row = draw_below(&d, static_cast<uint32_t>(rows.kdtree_get_point_count()));
        for (uint32_t j = 0; j < columns; j++)
            drawn.push_back(static_cast<uint16_t>(rows.table[row * columns + j] + draw_below(&d, 9)));
    }
    return drawn;
}

/* The median distance of the 20th neighbour. */
uint32_t choose_r(Index &index, const std::vector<uint16_t> &query)
{
    std::vector<uint32_t> far;
    for (uint32_t q = 0; q < queries; q++) {
        index.closest(&query[q * columns], neighbour);
        far.push_back(index.distances[neighbour - 1]);
    }
    std::sort(far.begin(), far.end());
    return far[queries / 2];
}

template <class T> void keep(const std::string &path, const std::vector<T> &values)
{
    std::ofstream(path, std::ios::binary).write(reinterpret_cast<const char *>(values.data()), static_cast<std::streamsize>(values.size() * sizeof(T)));
}

/* The least mean of several passes, in microseconds a call; the two take turns. */
std::pair<double, double> time_both(uint32_t calls, const std::function<void(uint32_t)> &ours, const std::function<void(uint32_t)> &theirs)
{
    double best[2] = { 1e18, 1e18 };
    for (uint32_t pass = 0; pass < passes; pass++)
        for (int k = 0; k < 2; k++) {
            std::clock_t begin = std::clock();
            for (uint32_t i = 0; i < calls; i++)
                (k == 0 ? ours : theirs)(i);
            best[k] = std::min(best[k], 1e6 * static_cast<double>(std::clock() - begin) / CLOCKS_PER_SEC / calls);
        }
    return { best[0], best[1] };
}

/* Our answers, for field.py too: of each query the number of rows within r, these rows, and the distances of the nearest. */
bool compare(Index &index, const Tree &tree, const std::vector<uint16_t> &query, uint32_t r, const std::string &folder)
{
    std::vector<uint32_t> inside, rows, far;
    std::vector<float> as_float(query.begin(), query.end());
    /* nanoflann takes what is nearer than its radius, so r + 1 takes what is at r. */
    const float beyond = static_cast<float>(r) + 1;
    bool same = true;
    for (uint32_t q = 0; q < queries; q++) {
        std::vector<std::pair<uint32_t, float>> found;
        std::vector<uint32_t> theirs, near(wanted);
        std::vector<float> near_far(wanted);
        tree.radiusSearch(&as_float[q * columns], beyond, found, nanoflann::SearchParams());
        for (const auto &f : found)
            theirs.push_back(f.first);
        std::sort(theirs.begin(), theirs.end());
        inside.push_back(index.within(&query[q * columns], r).inside);
        size_t before = rows.size();
        for (uint32_t i = 0; i < index.count(); i++)
            if (index.how[i] >= BOURASCUL_IN)
                rows.push_back(i);
        same = same && theirs == std::vector<uint32_t>(rows.begin() + static_cast<std::ptrdiff_t>(before), rows.end());
        index.closest(&query[q * columns], wanted);
        tree.knnSearch(&as_float[q * columns], wanted, near.data(), near_far.data());
        same = same && std::equal(near_far.begin(), near_far.end(), index.distances.begin(),
                                  [](float a, uint32_t b) { return static_cast<uint32_t>(a) == b; });
        far.insert(far.end(), index.distances.begin(), index.distances.begin() + wanted);
    }
    keep(folder + "/inside", inside);
    keep(folder + "/rows", rows);
    keep(folder + "/far", far);
    return same;
}

} // namespace

int main(int count, char **word)
{
    uint32_t n = count == 3 ? static_cast<uint32_t>(std::strtoul(word[1], nullptr, 10)) : 0;
    if (n < neighbour || n > BOURASCUL_MOST_ROWS) {
        std::fputs("usage: field ROWS FOLDER    (ROWS from 20 to 1048576)\n", stderr);
        return 2;
    }
    std::string folder = word[2];
    Rows rows = season(n);
    std::vector<uint16_t> query = draw_queries(rows);
    Index index(rows);
    Tree tree(columns, rows, nanoflann::KDTreeSingleIndexAdaptorParams());
    auto built = time_both(1, [&](uint32_t) { index.build(); }, [&](uint32_t) { tree.buildIndex(); });
    uint32_t r = choose_r(index, query);
    keep(folder + "/table", rows.table);
    keep(folder + "/queries", query);
    keep(folder + "/r", std::vector<uint32_t>{ r });
    if (!compare(index, tree, query, r, folder)) {
        std::puts("DIFFERENCE: nanoflann");
        return 1;
    }
    std::vector<std::pair<uint32_t, float>> found;
    std::vector<uint32_t> near(wanted);
    std::vector<float> far(wanted), as_float(query.begin(), query.end());
    const float beyond = static_cast<float>(r) + 1;
    auto radius = time_both(queries, [&](uint32_t q) { index.within(&query[q * columns], r); },
                            [&](uint32_t q) { tree.radiusSearch(&as_float[q * columns], beyond, found, nanoflann::SearchParams()); });
    auto nearest = time_both(queries, [&](uint32_t q) { index.closest(&query[q * columns], wanted); },
                             [&](uint32_t q) { tree.knnSearch(&as_float[q * columns], wanted, near.data(), far.data()); });
    std::printf("| %u | library, m = %u, l = %u | %.1f | %.1f | %.1f |\n", n, centres, leaf, built.first / 1e3, radius.first, nearest.first);
    std::printf("| %u | nanoflann, L1, leaves of 10 | %.1f | %.1f | %.1f |\n", n, built.second / 1e3, radius.second, nearest.second);
    return 0;
}
