/* What the listing program and the analyst's program should write, reckoned by the naive implementation:
     expected list                        the text of standard input as c, m, l and rows (01, The five-row table)
     expected minutes FILE like WHAT R [OPTION ..]       the question of the analyst's program, over a text that is known to be good
     expected minutes FILE nearest WHAT W [OPTION ..]
   host/expected.sh holds the files crates/NAME/stdout to it. */
#include <ctype.h>
#include <stdio.h>
#include <stdlib.h>
#include <string.h>

#include "naive.h"

enum {
    MOST_TEXT = 1 << 23,
    MOST_NUMBERS = 1 << 20,
    EDITION = 2,  /* what both programs build */
    NODE_WORDS = 5,
    CENTRES = 2,  /* what the analyst's program builds with */
    LEAF = 1024,
    MOST_ROWS = 1 << 16,
    MOST_FIELDS = 16,
    MOST_QUERIES = 64
};

static char text[MOST_TEXT + 1];
static uint16_t number[MOST_NUMBERS];

static size_t read_text(void)
{
    size_t length = fread(text, 1, MOST_TEXT, stdin);
    text[length] = 0;
    return length;
}

static void *room_for(size_t count, size_t size)
{
    void *p = calloc(count + 1, size);
    if (p == NULL)
        exit(2);
    return p;
}

/* ---- The listing program ---- */

/* A decimal number up to 65,535 without a leading zero, from *at on; -1 where there is none. */
static long one_number(const char **at)
{
    const char *begin = *at;
    long value = 0;
    while (isdigit((unsigned char)**at) && value <= 65535)
        value = 10 * value + *(*at)++ - '0';
    size_t digits = (size_t)(*at - begin);
    return digits == 0 || value > 65535 || (*begin == '0' && digits > 1) ? -1 : value;
}

/* How many numbers the text holds, parted by one space or newline; 0 where it can't be read. */
static size_t listed_numbers(size_t length)
{
    const char *at = text, *end = text + length;
    size_t count = 0;
    for (;;) {
        long value = one_number(&at);
        if (value < 0 || count == 1027)
            return 0;
        number[count++] = (uint16_t)value;
        if (at == end || (*at == '\n' && at + 1 == end))
            return count < 3 ? 0 : count;
        if (*at != ' ' && *at != '\n')
            return 0;
        at++;
    }
}

/* Of `count` records of `width` words the first `shown` words of each, a line each. */
static void print_records(const uint32_t *words, size_t count, size_t width, size_t shown)
{
    for (size_t i = 0; i < count; i++)
        for (size_t j = 0; j < shown; j++)
            printf("%u%c", words[width * i + j], j + 1 == shown ? '\n' : ' ');
}

static int list(void)
{
    size_t count = listed_numbers(read_text());
    if (count == 0) {
        puts("refused 18");
        return 0;
    }
    struct naive_room room = { room_for(12296, 4), 12296 }, work = { room_for(6144, 4), 6144 };
    struct naive_says says = naive_build((struct naive_table){ number + 3, count - 3, number[0] }, number[1], number[2], 0, EDITION, room, work);
    if (says.number != 0)
        printf("refused %u\n", says.number);
    else {
        print_records(room.words + 8, says.two, NODE_WORDS, 4);
        print_records(room.words + 8 + NODE_WORDS * (size_t)says.two, room.words[1], 2, 2);
    }
    return 0;
}

/* ---- The analyst's program ---- */

static char *line[MOST_ROWS + 1];     /* the rows' lines, and behind the last nothing */
static char *names;                   /* the line of names, or NULL */
static size_t rows;                   /* how many rows there are */
static size_t order[MOST_ROWS];       /* the answers, by row number */
static uint32_t away[MOST_ROWS];      /* the distance of each row */

static const struct { const char *name; int takes; } options[] = {
    { "--columns", 1 }, { "--circle", 1 }, { "--without", 1 }, { "--label", 1 }, { "--by", 1 }, { "--count", 0 }, { "--csv", 0 }, { "--lines", 0 }
};
enum { COLUMNS, CIRCLE, WITHOUT, LABEL, BY, COUNT, CSV, LINES, OPTIONS };

static char *plain[4], *given[OPTIONS]; /* FILE, the way, WHAT, the amount; the options' values, "" for those without */

static void take_words(int count, char **word)
{
    int at = 0;
    for (int i = 0; i < count; i++) {
        int known = 0;
        for (int k = 0; k < OPTIONS && !known; k++)
            if (strcmp(word[i], options[k].name) == 0) {
                given[k] = options[k].takes ? word[++i] : "";
                known = 1;
            }
        if (!known && at < 4)
            plain[at++] = word[i];
    }
}

/* The lines of a good text, without the mark, carriage returns and blank lines at the end. */
static void read_lines(const char *path)
{
    FILE *file = fopen(path, "rb");
    if (file == NULL)
        exit(2);
    size_t length = fread(text, 1, MOST_TEXT, file);
    fclose(file);
    text[length] = 0;
    char *at = memcmp(text, "\xef\xbb\xbf", 3) == 0 ? text + 3 : text;
    while (*at != 0) {
        char *end = at + strcspn(at, "\n"), *next = *end == 0 ? end : end + 1;
        *end = 0;
        if (end > at && end[-1] == '\r')
            end[-1] = 0;
        if (rows == 0 && names == NULL && isalpha((unsigned char)*at))
            names = at;
        else if (strspn(at, " ") != strlen(at))
            line[rows++] = at;
        at = next;
    }
}

/* Field j of a line, from 0 on, and its length; NULL where there is none. */
static const char *field(const char *at, size_t j, size_t *length)
{
    static const char parting[] = ",;\t ";
    at += strspn(at, parting);
    for (size_t k = 0; *at != 0; k++) {
        *length = strcspn(at, parting);
        if (k == j)
            return at;
        at += *length;
        at += strspn(at, parting);
    }
    return NULL;
}

static size_t field_count(const char *at)
{
    size_t length, count = 0;
    while (field(at, count, &length) != NULL)
        count++;
    return count;
}

/* A column by number from 1 or by name, as a number from 0. */
static size_t column_of(const char *word, size_t length)
{
    size_t j, other;
    if (isdigit((unsigned char)*word))
        return strtoul(word, NULL, 10) - 1;
    for (j = 0; names != NULL && j < field_count(names); j++) {
        const char *name = field(names, j, &other);
        if (other == length && memcmp(name, word, length) == 0)
            return j;
    }
    exit(2);
}

static size_t chosen[MOST_FIELDS];
static unsigned long factor[MOST_FIELDS];

/* The columns of the list, or all but the label; how many. */
static uint32_t choose(const char *list, size_t label)
{
    uint32_t k = 0;
    if (list == NULL) {
        for (size_t j = 0; j < field_count(line[0]); j++)
            if (j != label) {
                chosen[k] = j;
                factor[k++] = 1;
            }
        return k;
    }
    for (;; list++) {
        size_t length = strcspn(list, ",*");
        chosen[k] = column_of(list, length);
        list += length;
        factor[k++] = *list == '*' ? strtoul(list + 1, (char **)&list, 10) : 1;
        if (*list == 0)
            return k;
    }
}

/* Of the k chosen columns, those that the list says are circles, as bits. */
static uint32_t circles_of(const char *list, uint32_t k)
{
    uint32_t set = 0;
    while (list != NULL) {
        size_t length = strcspn(list, ","), column = column_of(list, length);
        for (uint32_t j = 0; j < k; j++)
            if (chosen[j] == column)
                set |= (uint32_t)1 << j;
        list = list[length] == 0 ? NULL : list + length + 1;
    }
    return set;
}

static void fill_table(uint32_t k)
{
    size_t length;
    for (size_t i = 0; i < rows; i++)
        for (uint32_t j = 0; j < k; j++)
            number[i * k + j] = (uint16_t)(strtoul(field(line[i], chosen[j], &length), NULL, 10) * factor[j]);
}

/* The queries of WHAT; how many. */
static size_t fill_queries(const char *what, uint32_t k, uint16_t *query)
{
    size_t count = 0, length;
    const char *sign = strchr(what, '=');
    if (sign == what) {
        const char *at = what;
        for (uint32_t j = 0; j < k; j++)
            query[j] = (uint16_t)(strtoul(at + 1, (char **)&at, 10) * factor[j]);
        return 1;
    }
    if (sign != NULL) {
        size_t j = column_of(what, (size_t)(sign - what));
        for (size_t i = 0; i < rows; i++) {
            const char *here = field(line[i], j, &length);
            if (length == strlen(sign + 1) && memcmp(here, sign + 1, length) == 0)
                memcpy(query, number + i * k, k * sizeof *query);
        }
        return 1;
    }
    for (;; what++) {
        memcpy(query + k * count++, number + strtoul(what, (char **)&what, 10) * k, k * sizeof *query);
        if (*what == 0)
            return count;
    }
}

/* The rows that a good text withdraws, a number a line, as a set of bits. */
static uint32_t *withdrawn_by(const char *path)
{
    uint32_t *set = room_for(rows / 32 + 1, 4);
    char word[64];
    FILE *file = path == NULL ? NULL : fopen(path, "rb");
    if (path != NULL && file == NULL)
        exit(2);
    while (file != NULL && fscanf(file, "%63s", word) == 1) {
        size_t row = strtoul(strncmp(word, "\xef\xbb\xbf", 3) == 0 ? word + 3 : word, NULL, 10);
        set[row / 32] |= (uint32_t)1 << row % 32;
    }
    if (file != NULL)
        fclose(file);
    return set;
}

static int by_distance(const void *a, const void *b)
{
    size_t i = *(const size_t *)a, j = *(const size_t *)b;
    return away[i] != away[j] ? (away[i] < away[j] ? -1 : 1) : i < j ? -1 : i > j;
}

static void print_grouped(size_t n)
{
    if (n < 1000)
        printf("%zu", n);
    else
        printf("%zu,%03zu", n / 1000, n % 1000);
}

static void print_found(size_t found, size_t measured)
{
    print_grouped(found);
    printf(" minute%s", found == 1 ? "" : "s");
    if (found >= 60)
        printf(", %zu h %zu min", found / 60, found % 60);
    fputs("; ", stdout);
    print_grouped(measured);
    fputs(" of ", stdout);
    print_grouped(rows);
    puts(" measured");
}

static void print_field(const char *at, size_t j, char before)
{
    size_t length;
    const char *here = field(at, j, &length);
    printf("%c%.*s", before, (int)length, here);
}

static void print_answers(size_t found, size_t label)
{
    char parting = given[CSV] != NULL ? ',' : ' ';
    if (given[CSV] != NULL) {
        fputs("row,distance", stdout);
        if (given[LABEL] != NULL)
            print_field(names, label, parting);
        if (given[LINES] != NULL)
            printf("%c%s", parting, names == NULL ? "" : names);
        puts("");
    }
    for (size_t i = 0; i < found; i++) {
        printf("%zu%c%u", order[i], parting, away[order[i]]);
        if (given[LABEL] != NULL)
            print_field(line[order[i]], label, parting);
        if (given[LINES] != NULL)
            printf("%c%s", parting, line[order[i]]);
        puts("");
    }
}

/* How many distances the searches measure, by the naive index and searches. */
static size_t measured_by(uint32_t k, uint32_t circles, uint32_t *gone, const uint16_t *query, size_t queries, int like, uint32_t amount)
{
    struct naive_table table = { number, rows * k, k };
    struct naive_room room = { room_for(12 * rows + 8, 4), 12 * rows + 8 }, work = { room_for(6 * rows, 4), 6 * rows };
    struct naive_room answers = { room_for(rows, 4), rows }, distances = { room_for(rows, 4), rows };
    struct naive_set set = { gone, (rows + 31) / 32 };
    struct naive_bytes how = { room_for(rows, 1), rows };
    struct naive_index index = { room.words, naive_build(table, CENTRES, LEAF, circles, EDITION, room, work).one };
    size_t measured = 0;
    for (size_t i = 0; i < queries; i++) {
        struct naive_query asked = { query + i * k, k };
        measured += like ? naive_radius(table, index, asked, amount, set, how).two
                         : naive_nearest(table, index, asked, amount, set, answers, distances, how, work).two;
    }
    return measured;
}

static int minutes(int count, char **word)
{
    static uint16_t query[MOST_QUERIES * MOST_FIELDS];
    take_words(count, word);
    read_lines(plain[0]);
    size_t label = given[LABEL] == NULL ? MOST_FIELDS : column_of(given[LABEL], strlen(given[LABEL])), found = 0;
    uint32_t k = choose(given[COLUMNS], label), circles = circles_of(given[CIRCLE], k), amount = (uint32_t)strtoul(plain[3], NULL, 10);
    fill_table(k);
    size_t queries = fill_queries(plain[2], k, query);
    int like = strcmp(plain[1], "like") == 0;
    uint32_t *gone = withdrawn_by(given[WITHOUT]);
    for (size_t i = 0; i < rows; i++) {
        away[i] = UINT32_MAX;
        for (size_t j = 0; j < queries; j++) {
            uint32_t d = naive_distance(query + j * k, number + i * k, k, circles);
            away[i] = d < away[i] ? d : away[i];
        }
        if ((gone[i / 32] >> i % 32) % 2 == 0 && (!like || away[i] <= amount))
            order[found++] = i;
    }
    if (!like || given[BY] != NULL)
        qsort(order, found, sizeof *order, by_distance);
    if (!like && found > amount)
        found = amount;
    if (given[COUNT] != NULL)
        printf("%zu\n", found);
    else
        print_answers(found, label);
    print_found(found, measured_by(k, circles, gone, query, queries, like, amount));
    printf("status %d\n", found == 0);
    return 0;
}

int main(int count, char **word)
{
    if (count == 2 && strcmp(word[1], "list") == 0)
        return list();
    if (count >= 6 && strcmp(word[1], "minutes") == 0)
        return minutes(count - 2, word + 2);
    fputs("usage: expected list | expected minutes FILE like WHAT R [OPTION ..] | expected minutes FILE nearest WHAT W [OPTION ..]\n", stderr);
    return 2;
}
