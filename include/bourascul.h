/* Bourascul: an exact similarity index over rows of 16-bit numbers, for C and C++ hosts on x86-64. examples/first.c is a first program.

   A table is n rows of c columns, row after row. The distance of two rows is the sum over the columns of the absolute differences;
   in a column that is a circle of 3,600 tenths of a degree, as a heading, it is the shorter way round: 3,595 and 5 are 10 apart.
   Which columns are circles is told to a build and stands in the index from then on. An index over the table answers two questions
   without a guess: every row within r of a query (radius), and the w rows closest to it (nearest). Both say which rows were measured.

   LENDING. Every buffer is yours: nothing is allocated, nothing is kept, and when a call returns, the library holds no
   pointer of yours. A buffer is a pointer and its length in ELEMENTS (not bytes). For the time of a call:
     - the pointer is aligned for its element. It may be NULL where the length is 0, and only there: nothing is read or written
       through it then, since every access is proved to be inside the length, and the compiled code takes no pointer for non-null;
     - a buffer that a call may change overlaps no other buffer of that call;
     - no other thread changes what is lent, nor reads what the call may change.
   Any CONTENT may be lent: words and bytes from a stranger are tested, never trusted. More room than asked for may be lent, and
   is left as it was.

   THREADS. There is no state between calls and no lock. Threads may share a table, an index, a query, a set and an image and search
   at the same time; what a call may change (room, work, how, rows, distances, answers, an image that is written, a set that rows are
   struck from or restored to) each thread lends of its own.

   STACK. Nothing else is taken. Bytes of stack that a call takes at most, measured on x86-64 code of the kit rattle-kit-13f
   (target/host/stack): strike and restore 8, list 112, write 152, read 264, build 632, append 648, nearest 848, nearest_answers 896,
   append_rows 1,256, check 1,600, radius 24,712 (25 levels). A loader that binds late may take about 3,500 more in the first call that
   needs memcpy, memmove or memset.

   NUMBERS. Each call but bourascul_list gives a number, first or alone. 0 is done; any other is a refusal, and of several the lowest
   is given (but 19 comes before 10 to 13; bourascul_read gives 8, 9, 19 and 5 last, in this order; bourascul_write gives 16 before
   5):
      1  columns not 1 to 16
      2  build: m not 2 to 64, or l not m to 1,024, or a circle's bit at or above the columns, or an edition other than 2
      3  the table's length is no multiple of the columns
      4  more than 1,048,576 rows
      5  a lent room is too short (reading: for the words that would come out)
      6  the query's length is not the columns
      7  nearest: 0 wanted
      8  the index has fewer than 8 words, or an impossible header (an edition other than 2 is one), or one of other rows or
         columns than the table's, or fewer words than its header asks for; append: of other rows than the table's but the
         last; append_rows: of as many rows as the table's, or more; reading: the image's header is of other rows or columns
         than the table's
      9  the index's shape is wrong; reading: the shape of the index in the image
     10  check: a row number stands a second time
     11  check: a stored distance is wrong
     12  check: a node's radius is wrong, or its inner reach
     13  check: a row is closer to another centre
     14  the image is empty or no multiple of 512 bytes
     15  a block's check word is wrong
     16  the header is impossible (of an index an edition other than 2 is, of an image one other than 1 and 2); reading: the
         header asks for another number of blocks; writing: words are missing
     17  reading: a word after the last is not zero
     19  a column that is a circle holds 3,600 or more, in any row of the table or in the query
     20  a set of rows has not n/32 words, rounded up, or a bit n or above is on
     26  strike, restore: there is no such row
   On a refusal the other fields of the result are 0 (save the places of 10 to 13 and 15) and every lent buffer is as it
   was; only 10 to 13 zero the workspace as a success does, 19 does not.

   THE INDEX is 32-bit words: edition 2, n, c, m, l, the number of nodes N, distance kind 1, the set of circles (bit j on: column j,
   from 0, is a circle; a header with a bit at or above c is impossible); then for each node its start, count, first child's number
   (0 for a leaf), radius and inner reach; then for each position the row number and its distance from its leaf's first. The radius
   is the greatest distance from the node's first to a member, the inner reach the least one to another member, 0 for a node of one
   row. That is 8 + 5N + 2n words, at most 12n + 8. It belongs to the table it was built over: keep the two together, and check an
   index that comes from elsewhere.

   Edition 1, which is written no longer, had no inner reach: 8 + 4N + 2n words. A card of edition 1 is read as edition 2, with
   each node's inner reach worked out from the table (bourascul_read); in memory no call takes an index of edition 1.

   THE SET of withdrawn rows is 32-bit words, n/32 of them, rounded up: bit r % 32 of word r / 32 is on where row r is withdrawn,
   and bits n and above are off. Words of zero withdraw nothing; a table without rows has a set of no words. A withdrawn row stays in
   the index, and may be measured there, but no search gives it: its how-byte is 1 where it was measured, else 0. The set is yours:
   it stands beside table and index, which stay as they are; bourascul_strike and bourascul_restore change it, or the host does so
   itself.

   A search tests an index's header, words and shape, and that table and query are on the circles, and no more: where bourascul_check
   says 8, 9 or 19, a search says the same, if 5, 6 or 7 does not come before. On an index that the check refuses with 10 to 13 a
   search stays within what is lent and gives 0 where nothing else is wrong, but its answer is not to be relied on: check an index
   from elsewhere once, before the first search.

   VERSION. This page and the archive belong together: take both from one commit, and compile a host of an older page anew, since calls
   of the same name take more now. Major is raised where a call or a structure changes, minor where one is added. The index's edition,
   its first word, is another number: that of the words' layout. */
#ifndef BOURASCUL_H
#define BOURASCUL_H

/* The archive that host/archive.sh makes is x86-64 code for Linux, called as the System V ABI says. Who compiles the library's code
   himself for another processor defines BOURASCUL_ANY_PROCESSOR; the calls and structures are the same there, with 64-bit lengths. */
#if !(defined(__x86_64__) && defined(__LP64__)) && !defined(BOURASCUL_ANY_PROCESSOR)
#error "libbourascul.a is x86-64 code for Linux: define BOURASCUL_ANY_PROCESSOR only where the library was compiled for this processor"
#endif

#include <stddef.h>
#include <stdint.h>

#define BOURASCUL_VERSION_MAJOR 3
#define BOURASCUL_VERSION_MINOR 1

#ifdef __cplusplus
extern "C" {
#endif

/* What a build is told where there is no reason for another choice. The edition is the only one that is built. Sixteen centres and
   leaves of 128 rows: a search tests every node's words, so that small leaves, which have many nodes, cost more than the rows that
   they spare; more centres gain nothing, and fewer build faster (docs/FIGURES.md has both by m and l). */
#define BOURASCUL_EDITION 2u
#define BOURASCUL_CENTRES 16u
#define BOURASCUL_LEAF 128u

/* The fixed limits of the index kind. */
#define BOURASCUL_MOST_COLUMNS 16u
#define BOURASCUL_MOST_ROWS 1048576u
#define BOURASCUL_MOST_DISTANCE 1048560u
#define BOURASCUL_CIRCLE 3600u
#define BOURASCUL_BLOCK_BYTES 512u

/* Words of room that a build over n rows asks for, and an append of rows up to the n-th, enough for reading too; and words of
   workspace for build, append, append_rows, check and nearest. */
#define BOURASCUL_ROOM_WORDS(n) (12u * (size_t)(n) + 8u)
#define BOURASCUL_WORK_WORDS(n) (6u * (size_t)(n))

/* Words of a set of n rows. */
#define BOURASCUL_SET_WORDS(n) (((size_t)(n) + 31u) / 32u)

/* Blocks that an index of so many words takes in an image. */
#define BOURASCUL_BLOCKS(words) (((size_t)(words) + 126u) / 127u)

/* The numbers, as above. */
enum {
    BOURASCUL_DONE = 0,
    BOURASCUL_BAD_COLUMNS = 1,
    BOURASCUL_BAD_PARAMETERS = 2,
    BOURASCUL_BAD_LENGTH = 3,
    BOURASCUL_TOO_MANY_ROWS = 4,
    BOURASCUL_ROOM_TOO_SHORT = 5,
    BOURASCUL_BAD_QUERY = 6,
    BOURASCUL_NONE_WANTED = 7,
    BOURASCUL_BAD_INDEX = 8,
    BOURASCUL_BAD_SHAPE = 9,
    BOURASCUL_ROW_AGAIN = 10,
    BOURASCUL_WRONG_DISTANCE = 11,
    BOURASCUL_WRONG_REACH = 12,
    BOURASCUL_CLOSER_CENTRE = 13,
    BOURASCUL_BAD_IMAGE_LENGTH = 14,
    BOURASCUL_WRONG_CHECK_WORD = 15,
    BOURASCUL_BAD_IMAGE_HEADER = 16,
    BOURASCUL_REST_NOT_ZERO = 17,
    BOURASCUL_OFF_CIRCLE = 19,
    BOURASCUL_BAD_SET = 20,
    BOURASCUL_NO_SUCH_ROW = 26
};

/* A number in words, for a line to a user or a log. */
static inline const char *bourascul_message(uint32_t number)
{
    static const char *const messages[] = {
        "done",
        "the columns are not 1 to 16",
        "m is not 2 to 64, or l is not m to 1,024, or a circle is no column, or the edition is not 2",
        "the table's length is no multiple of the columns",
        "the table has more than 1,048,576 rows",
        "a lent buffer is too short",
        "the query's length is not the columns",
        "no row is wanted",
        "the index is no index of this table",
        "the index's shape is wrong",
        "a row stands in the index a second time",
        "a stored distance is wrong",
        "a node's radius or inner reach is wrong",
        "a row is closer to another centre",
        "the image is empty or no multiple of 512 bytes",
        "a block's check word is wrong",
        "the header is impossible, or the words or blocks are not as many as it asks for",
        "a word after the image's last is not zero",
        "no number of this library",
        "a column that is a circle holds 3,600 or more",
        "the set of rows is not of the table's rows"
    };
    if (number == BOURASCUL_NO_SUCH_ROW) return "there is no such row";
    return number < sizeof messages / sizeof messages[0] ? messages[number] : "no number of this library";
}

/* What a search knows of a row. After radius: 0 out, 1 out and measured, 2 in, 3 in and measured. After nearest: 0 not
   measured, 1 measured, 3 an answer. */
enum {
    BOURASCUL_OUT = 0,
    BOURASCUL_OUT_MEASURED = 1,
    BOURASCUL_IN = 2,
    BOURASCUL_IN_MEASURED = 3
};

typedef struct bourascul_built {
    uint32_t number;
    uint32_t words; /* the index's words */
    uint32_t nodes; /* its nodes, N */
} bourascul_built;

typedef struct bourascul_checked {
    uint32_t number;
    uint32_t place;  /* 10, 11: the position; 12, 13: the node; else 0 */
    uint32_t second; /* 13: the position, counted over the whole index; else 0 */
} bourascul_checked;

typedef struct bourascul_within {
    uint32_t number;
    uint32_t inside;   /* rows in: how-bytes 2 and 3 */
    uint32_t measured; /* rows measured: how-bytes 1 and 3 */
} bourascul_within;

typedef struct bourascul_closest {
    uint32_t number;
    uint32_t given;    /* answers: the lesser of w and the number of rows that are not withdrawn */
    uint32_t measured; /* rows measured: how-bytes 1 and 3 */
} bourascul_closest;

typedef struct bourascul_answer {
    uint32_t row;
    uint32_t distance;
} bourascul_answer;

typedef struct bourascul_written {
    uint32_t number;
    uint32_t blocks; /* blocks of 512 bytes written */
} bourascul_written;

typedef struct bourascul_taken {
    uint32_t number;
    uint32_t place; /* 15: the lowest wrong block (one beyond 4,294,967,295, in an image of terabytes, as that number); else 0 */
    uint32_t words; /* the words of the index that came out */
} bourascul_taken;

typedef struct bourascul_part {
    uint32_t start;  /* in words of the index */
    uint32_t length; /* in words: two for each row */
} bourascul_part;

/* Builds an index over the table, with m centres in each inner node and leaves of at most l rows. Bit j of circles is on where
   column j, from 0, is a circle: 0 where none is. The edition is 2.
   Lent: table of n * c numbers; room of at least 12n + 8 words; work of at least 6n words.
   Numbers: 0, 1, 2, 3, 4, 5, 19.
   Done: the first `words` words of room are the index, which bourascul_check accepts, and the rest stays; the first 6n
   words of work are 0, and the rest stays. The same table, m, l and circles always give the
   same index.
   BOURASCUL_CENTRES, BOURASCUL_LEAF and BOURASCUL_EDITION are a good choice of m, l and edition. */
bourascul_built bourascul_build(const uint16_t *table, size_t table_length, uint32_t c, uint32_t m, uint32_t l, uint32_t circles,
                                uint32_t edition, uint32_t *room, size_t room_length, uint32_t *work, size_t work_length);

/* One row more: the table's last row goes into an index of the rows before it.
   Lent: the table of n rows, the new one last; the index of the first n - 1 rows (more words may be lent); room of at least
   12n + 8 words; work of at least 6n words. Index and room are different buffers.
   Numbers: 0, 1, 3, 4, 5, 8, 9, 19. 8 unless the table has just one row more than the header says, so for a table without rows;
   19 looks at the new row too.
   Done: the first `words` words of room are the new index, and the rest stays; the first 6n words of work are 0, and the rest
   stays. From the root the row goes to the child whose first is closest, the earliest among equals, down to a leaf, where it
   stands last; radii on the way grow and inner reaches shrink as it asks. A leaf of more than l rows above depth 24 is split as
   a build splits it, its first and then the others ascending, unless a row stands in it twice. The leaf's distances are measured
   anew; all other rows keep their order and their stored distances, and nodes are numbered anew. The first row of all gives the
   build of one row. If bourascul_check accepts the old index, it accepts the new one; a fresh build may give another.
   Each call tests and copies the whole index: several rows go in by bourascul_append_rows. */
bourascul_built bourascul_append(const uint16_t *table, size_t table_length, uint32_t c, const uint32_t *index, size_t index_length,
                                 uint32_t *room, size_t room_length, uint32_t *work, size_t work_length);

/* Several rows more, as a night's: every row of the table that the index has not goes into it, in one pass over the index.
   Lent: the table of n rows, the new ones last; the index of the first rows, as many as its header says (more words may be lent);
   room of at least 12n + 8 words; work of at least 6n words. Index and room are different buffers.
   Numbers: 0, 1, 3, 4, 5, 8, 9, 19. 8 unless the table has at least one row more than the header says; 19 looks at the new rows too.
   Done: the first `words` words of room are the new index, and the rest stays; the first 6n words of work are 0, and the rest
   stays. If bourascul_check accepts the old index with its rows, these are the words that one bourascul_append after the other
   writes, each with the table's rows as far as the one that it puts in, and the check accepts them. On an index that it would
   refuse the rows go in one by one all the same; a leaf in which a row stands twice is not split, however many it takes. */
bourascul_built bourascul_append_rows(const uint16_t *table, size_t table_length, uint32_t c, const uint32_t *index, size_t index_length,
                                      uint32_t *room, size_t room_length, uint32_t *work, size_t work_length);

/* The full check of an index from anyone, against its table.
   Lent: the table; the index; work of at least 6n words.
   Numbers: 0, 1, 3, 4, 5, 8, 9, 19, 10, 11, 12, 13 (of several the first in this row).
   0 exactly when the index is in shape, each row stands once, stored distances, radii and inner reaches are right, and each
   member is as close to its own centre as to any other centre of the node above. 10 to 13 name the lowest place.
   Done, or 10 to 13: the first 6n words of work are 0, and the rest stays. */
bourascul_checked bourascul_check(const uint16_t *table, size_t table_length, uint32_t c,
                                  const uint32_t *index, size_t index_length, uint32_t *work, size_t work_length);

/* Every row within r of the query, r included, but for withdrawn ones.
   Lent: the table; the index; a query of c numbers; the set of withdrawn rows; how of at least n bytes.
   Numbers: 0, 1, 3, 4, 5, 6, 8, 9, 19, 20.
   Done, on an index that the full check accepts: how-byte i is 2 or 3 exactly when row i is at most r from the query and not
   withdrawn; `inside` and `measured` count how-bytes. Bytes from n on stay. */
bourascul_within bourascul_radius(const uint16_t *table, size_t table_length, uint32_t c,
                                  const uint32_t *index, size_t index_length, const uint16_t *query, size_t query_length,
                                  uint32_t r, const uint32_t *withdrawn, size_t withdrawn_length, uint8_t *how, size_t how_length);

/* The w rows closest to the query, by distance, then row number, but for withdrawn ones.
   Lent: the table; the index; a query of c numbers; the set of withdrawn rows; rows and distances of at least min(w, n) words each;
   how of at least n bytes; work of at least 6n words.
   Numbers: 0, 1, 3, 4, 5, 6, 7, 8, 9, 19, 20.
   Done, on an index that the full check accepts: rows[i] and distances[i] are answer i, for i below `given`, which is the lesser of
   w and the number of rows that are not withdrawn, and later entries stay; how-byte i is 3 for an answer, 1 for another measured row,
   0 for a row that was not measured; where fewer than w rows are not withdrawn, all are measured; bytes from n on stay; the first 6n
   words of work are 0, and the rest stays. */
bourascul_closest bourascul_nearest(const uint16_t *table, size_t table_length, uint32_t c,
                                    const uint32_t *index, size_t index_length, const uint16_t *query, size_t query_length,
                                    uint32_t w, const uint32_t *withdrawn, size_t withdrawn_length,
                                    uint32_t *rows, size_t rows_length, uint32_t *distances, size_t distances_length,
                                    uint8_t *how, size_t how_length, uint32_t *work, size_t work_length);

/* The same, with the answers as records too.
   Lent: what bourascul_nearest is lent, and answers of at least min(w, n) records.
   Numbers: as bourascul_nearest.
   Done: as bourascul_nearest, and answers[i] is { rows[i], distances[i] } for i below `given`; later records stay. */
bourascul_closest bourascul_nearest_answers(const uint16_t *table, size_t table_length, uint32_t c,
                                            const uint32_t *index, size_t index_length,
                                            const uint16_t *query, size_t query_length, uint32_t w,
                                            const uint32_t *withdrawn, size_t withdrawn_length,
                                            bourascul_answer *answers, size_t answers_length,
                                            uint32_t *rows, size_t rows_length, uint32_t *distances, size_t distances_length,
                                            uint8_t *how, size_t how_length, uint32_t *work, size_t work_length);

/* A row is withdrawn.
   Lent: the set of withdrawn rows, of a table of n rows.
   Numbers: 0, 20, 26. The number is all that comes back.
   Done: the row's bit is on, and every other bit is as it was. Striking twice is striking once, and orders for different rows may
   come in any order: the set is the same then, and so is every search's answer. */
uint32_t bourascul_strike(uint32_t *withdrawn, size_t withdrawn_length, uint32_t n, uint32_t row);

/* A row is withdrawn no longer, whether or not it was.
   Lent and numbers: as bourascul_strike.
   Done: the row's bit is off, and every other bit is as it was. A strike and a restore of one row may not change places: the later
   one holds. */
uint32_t bourascul_restore(uint32_t *withdrawn, size_t withdrawn_length, uint32_t n, uint32_t row);

/* Writes an index as an image: blocks of 127 words and a check word, little-endian, zeros after the last word.
   Lent: the index; image of at least 512 bytes for each block (BOURASCUL_BLOCKS of the index's words).
   Numbers: 0, 16, 5 (16 comes first). The shape is not asked, and words lent after the index's own are not written.
   Done: the first 512 * blocks bytes are the image, and the rest stays. */
bourascul_written bourascul_write(const uint32_t *index, size_t index_length, uint8_t *image, size_t image_length);

/* Reads an image back, over the table that its index is of. Any one changed word, and any block in another block's place, is
   found (15).
   Lent: the image, whole and nothing else; the table; room for the words that come out, 8 + 5N + 2n from an image of either
   edition.
   Numbers: 0, 1, 3, 4, 14, 15, 16, 17, 8, 9, 19, 5 (of several the first in this row).
   Done: the first `words` words of room are the index, and the rest stays. From an image of edition 2 they are its words: an
   index in shape that bourascul_write wrote is read the same again over its table. A card of edition 1 is read as edition 2:
   each node gets as its inner reach the least distance from the row at its run's start to the rows at its other positions, 0
   where there is none, and nothing else changes; what was built over the table becomes what bourascul_build builds now.
   The index is in shape; whether it fits the table is for bourascul_check to say. */
bourascul_taken bourascul_read(const uint8_t *image, size_t image_length, const uint16_t *table, size_t table_length, uint32_t c,
                               uint32_t *room, size_t room_length);

/* Where a node's members stand in the index: (row number, distance from its leaf's first) pairs, in run order.
   Lent: the index.
   Both fields are 0 exactly when words are missing, the header is impossible, the shape is wrong or there is no such node.
   Every call tests the whole shape, all nodes and positions: a host that lists every node pays for that N times. After one listing
   of node 0 that is not empty such a host may read the other runs from the words itself: node k's start and count are words
   8 + 5k and 9 + 5k, and its pairs stand from word 8 + 5N + 2 * start on. */
bourascul_part bourascul_list(const uint32_t *index, size_t index_length, uint32_t node);

#ifdef __cplusplus
}
#endif

#endif
