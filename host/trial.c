/* Trials of the library against the naive implementation, on drawn input with fixed seeds.

     trial SECONDS [--seed S]       as many rounds as fit into the time
     trial --rounds N [--seed S]    so many rounds
     trial --again KIND ROUND [--seed S]   one case again (a difference prints this line)
     trial --self                   the scope paper's own cases

   Cases grow from round to round, so the first difference is among the smallest. Exit status 1 where there is one. */
#define _DEFAULT_SOURCE
#include <inttypes.h>
#include <stdio.h>
#include <stdlib.h>
#include <string.h>
#include <time.h>
#include <unistd.h>

#include "kinds.h"
#include "lend.h"

enum {
    GRACE_SECONDS = 900 /* no case takes this long, under an emulator neither, so a call that does hangs */
};

struct plan {
    uint64_t seed;
    double seconds;
    uint64_t rounds;
    bool again, self;
    uint64_t kind, round;
};

static double now(void)
{
    struct timespec t;
    clock_gettime(CLOCK_MONOTONIC, &t);
    return (double)t.tv_sec + 1e-9 * (double)t.tv_nsec;
}

/* The most rows of a case: few at first, later mostly some dozens and now and then some hundreds. */
static uint32_t limit_of(struct draw *d, uint64_t round)
{
    static const uint32_t late[] = { 8, 20, 20, 50, 50, 120, 120, 600 };
    if (round < 100)
        return 2 + (uint32_t)round / 8;
    return late[draw_below(d, 8)];
}

static void run_case(const struct plan *p, struct trial *t, uint64_t kind, uint64_t round)
{
    char story[256];
    t->draw = draw_part(p->seed, kind + 1, round + 1);
    snprintf(t->again, sizeof t->again, "trial --again %" PRIu64 " %" PRIu64 " --seed %" PRIu64, kind, round, p->seed);
    snprintf(story, sizeof story, "  kind: %s\n  again: %s\n", kinds[kind].name, t->again);
    lend_story(story);
    alarm(GRACE_SECONDS);
    kinds[kind].run(t, limit_of(&t->draw, round));
    alarm(0);
}

static void run_rounds(const struct plan *p, struct trial *trials)
{
    double end = now() + p->seconds;
    for (uint64_t round = 0; p->seconds > 0 ? now() < end : round < p->rounds; round++)
        for (size_t k = 0; k < kinds_count; k++)
            if (round % kinds[k].every == kinds[k].every / 4)
                run_case(p, &trials[k], k, round);
}

static int tell(const struct trial *trials)
{
    uint64_t calls = 0, differences = 0;
    for (size_t k = 0; k < kinds_count; k++) {
        printf("%12" PRIu64 " calls  %" PRIu64 " differences  %s\n", trials[k].calls, trials[k].differences, kinds[k].name);
        calls += trials[k].calls;
        differences += trials[k].differences;
    }
    tell_numbers();
    printf("%12" PRIu64 " calls  %" PRIu64 " differences  in all\n", calls, differences);
    return differences != 0;
}

static bool number(const char *text, uint64_t *to)
{
    char *end;
    *to = text == NULL ? 0 : strtoull(text, &end, 10);
    return text != NULL && *text >= '0' && *text <= '9' && *end == '\0';
}

static bool read_words(int count, char **word, struct plan *p)
{
    uint64_t seconds = 0;
    for (int i = 1; i < count; i++) {
        if (strcmp(word[i], "--self") == 0)
            p->self = true;
        else if (strcmp(word[i], "--seed") == 0 && number(word[i + 1], &p->seed))
            i++;
        else if (strcmp(word[i], "--rounds") == 0 && number(word[i + 1], &p->rounds))
            i++;
        else if (strcmp(word[i], "--again") == 0 && i + 2 < count && number(word[i + 1], &p->kind) && number(word[i + 2], &p->round)) {
            p->again = true;
            i += 2;
        } else if (number(word[i], &seconds))
            p->seconds = (double)seconds;
        else
            return false;
    }
    return p->self || p->rounds > 0 || p->seconds > 0 || (p->again && p->kind < kinds_count);
}

int main(int count, char **word)
{
    struct plan p = { 20, 0, 0, false, false, 0, 0 };
    struct trial *trials = calloc(kinds_count, sizeof *trials);
    if (trials == NULL || !read_words(count, word, &p)) {
        fputs("usage: trial SECONDS | --rounds N | --again KIND ROUND | --self   [--seed S]\n", stderr);
        free(trials);
        return 2;
    }
    lend_watch();
    int status;
    if (p.self) {
        uint32_t wrong = self_test();
        printf("the scope paper's cases: %" PRIu32 " differences\n", wrong);
        status = wrong != 0;
    } else {
        if (p.again)
            run_case(&p, &trials[p.kind], p.kind, p.round);
        else
            run_rounds(&p, trials);
        status = tell(trials);
    }
    free(trials);
    return status;
}
