/* Lent memory: pages that may not be touched catch a read or a write outside, guard bytes and copies the rest. */
#define _DEFAULT_SOURCE
#include "lend.h"

#include <signal.h>
#include <stdio.h>
#include <stdlib.h>
#include <string.h>
#include <sys/mman.h>
#include <unistd.h>

enum {
    GUARD = 64
};

/* The memory between two pages that may not be touched, and what is lent of it now. */
struct slot {
    uint8_t *low;
    size_t room;
    uint8_t *given, *guard, *expected, *lent;
    size_t bytes;
};

static struct slot slots[LENT_KINDS];
static char story[512];

static const char *const names[LENT_KINDS] = { "table", "index", "query",     "withdrawn", "room", "work",
                                               "how",   "rows",  "distances", "answers",   "image" };

const char *lend_name(enum lent which)
{
    return names[which];
}

void lend_story(const char *text)
{
    snprintf(story, sizeof story, "%s", text);
}

static void say(const char *text)
{
    /* Nothing can be done about a lost message in a signal handler. */
    if (write(STDOUT_FILENO, text, strlen(text)) < 0)
        _exit(1);
}

static void caught(int signal_number)
{
    say(signal_number == SIGALRM ? "difference: a call did not come back\n" : "difference: a call touched memory that it was not lent, or broke off\n");
    say(story);
    _exit(1);
}

void lend_watch(void)
{
    /* A stack of its own, or a call that recurses without end could not be told of. */
    static uint8_t own_stack[65536];
    const int all[] = { SIGSEGV, SIGBUS, SIGILL, SIGFPE, SIGABRT, SIGALRM };
    struct sigaction act;
    stack_t stack;
    memset(&stack, 0, sizeof stack);
    stack.ss_sp = own_stack;
    stack.ss_size = sizeof own_stack;
    sigaltstack(&stack, NULL);
    memset(&act, 0, sizeof act);
    act.sa_handler = caught;
    act.sa_flags = SA_ONSTACK;
    for (size_t i = 0; i < sizeof all / sizeof *all; i++)
        sigaction(all[i], &act, NULL);
}

static void out_of_memory(void)
{
    fputs("trial: out of memory\n", stderr);
    exit(2);
}

/* Guard bytes that no other place has, so that a misplaced copy shows. */
static uint8_t guard_byte(enum lent which, size_t i)
{
    return (uint8_t)(0xa5 ^ (17 * which + 31 * i));
}

static void make_room(struct slot *s, size_t bytes)
{
    size_t page = (size_t)sysconf(_SC_PAGESIZE);
    size_t need = (bytes + GUARD + page - 1) / page * page;
    if (s->room >= need)
        return;
    if (s->low != NULL)
        munmap(s->low - page, s->room + 2 * page);
    uint8_t *all = mmap(NULL, need + 2 * page, PROT_READ | PROT_WRITE, MAP_PRIVATE | MAP_ANONYMOUS, -1, 0);
    if (all == MAP_FAILED || mprotect(all, page, PROT_NONE) != 0 || mprotect(all + page + need, page, PROT_NONE) != 0)
        out_of_memory();
    s->low = all + page;
    s->room = need;
    free(s->expected);
    s->expected = malloc(2 * need);
    if (s->expected == NULL)
        out_of_memory();
    s->lent = s->expected + need;
}

static void fill(struct draw *d, uint8_t *at, size_t bytes)
{
    struct draw own = { draw_next(d) };
    for (size_t i = 0; i < bytes; i += 8) {
        uint64_t word = draw_next(&own);
        memcpy(at + i, &word, bytes - i < 8 ? bytes - i : 8);
    }
}

void *lend(struct draw *d, enum lent which, size_t bytes, const void *content)
{
    struct slot *s = &slots[which];
    make_room(s, bytes);
    bool at_the_end = draw_one_in(d, 2);
    s->bytes = bytes;
    s->given = at_the_end ? s->low + s->room - bytes : s->low;
    s->guard = at_the_end ? s->given - GUARD : s->given + bytes;
    for (size_t i = 0; i < GUARD; i++)
        s->guard[i] = guard_byte(which, i);
    if (content != NULL && bytes > 0)
        memcpy(s->given, content, bytes);
    else
        fill(d, s->given, bytes);
    memcpy(s->lent, s->given, bytes);
    lend_undo(which);
    return s->given;
}

void lend_undo(enum lent which)
{
    memcpy(slots[which].expected, slots[which].lent, slots[which].bytes);
}

void *lend_expected(enum lent which)
{
    return slots[which].expected;
}

void *lend_given(enum lent which)
{
    return slots[which].given;
}

size_t lend_bytes(enum lent which)
{
    return slots[which].bytes;
}

bool lend_kept(enum lent which, size_t *where)
{
    const struct slot *s = &slots[which];
    *where = SIZE_MAX;
    for (size_t i = 0; i < GUARD; i++)
        if (s->guard[i] != guard_byte(which, i))
            return false;
    if (memcmp(s->given, s->expected, s->bytes) == 0)
        return true;
    *where = 0;
    while (s->given[*where] == s->expected[*where])
        ++*where;
    return false;
}
