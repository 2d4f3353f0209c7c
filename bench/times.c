#define _POSIX_C_SOURCE 200809L
#include "times.h"

#include "../tests/independent/independent.h"

#include <stdbool.h>
#include <stdio.h>
#include <stdlib.h>
#include <string.h>
#include <time.h>

_Static_assert(REPLAY_OUTCOME == RUN_OUTCOME, "the library and the independent program give the same words");

double now_ns(void)
{
    struct timespec t;
    clock_gettime(CLOCK_MONOTONIC, &t);
    return 1e9 * (double)t.tv_sec + (double)t.tv_nsec;
}

/* What a run works on, and what it leaves. */
struct state {
    _Alignas(64) uint32_t image[LIST_IMAGE];
    _Alignas(64) uint16_t dst[LIST_DST];
    uint32_t outcome[OUTCOME];
};

static bool same(const struct state *a, const struct state *b, unsigned words)
{
    return memcmp(a->outcome, b->outcome, words * sizeof *a->outcome) == 0 && memcmp(a->image, b->image, sizeof a->image) == 0 &&
           memcmp(a->dst, b->dst, sizeof a->dst) == 0;
}

/* A run from a fresh copy of the image, on Dst as it stands. */
static void once(run_fn *run, const struct list *l, enum image_kind kind, struct state *s)
{
    memcpy(s->image, l->image[kind], sizeof s->image);
    run(list_settings, s->image, LIST_IMAGE, s->dst, LIST_DST, l->words, 6 * l->count, s->outcome);
}

/* Dst is copied before the clock starts and not for each run, as the copy takes longer than a short list. A run then meets what the one before it
 * stored, which is the same by every program: each starts from the same Dst, in the same place. */
static double several(const struct task *task, unsigned times)
{
    static struct state s;
    const struct program *p = task->by;
    memcpy(s.dst, list_dst, sizeof s.dst);
    double start = now_ns();
    for (unsigned t = 0; t < times; t++) once(p->run, task->list, task->kind, &s);
    return (now_ns() - start) / times;
}

/* All ones, which no count comes near: what a run does not write then shows. */
static void spoil(struct state *s) { memset(s->outcome, 0xFF, sizeof s->outcome); }

/* How many words of an outcome a program gives. A commit before M-102 does not write the ties, and one before M-106 not the stores, which is how
 * they are told: of a commit's library the run alone is linked, and no version. */
static unsigned words_given(run_fn *run)
{
    static struct state s;
    spoil(&s);
    run(list_settings, s.image, LIST_IMAGE, s.dst, LIST_DST, list_settings, 0, s.outcome);
    return s.outcome[O_TIES] == 0xFFFFFFFF ? O_TIES : s.outcome[O_STORES] == 0xFFFFFFFF ? O_STORES : OUTCOME;
}

static void must_agree(const struct program *programs, unsigned count, const struct list *l, enum image_kind kind)
{
    static struct state s[2];
    for (unsigned i = 0; i < count; i++) {
        struct state *own = &s[i != 0];
        memcpy(own->dst, list_dst, sizeof own->dst);
        spoil(own);
        once(programs[i].run, l, kind, own);
        if (s[0].outcome[0] == 0 && same(&s[0], own, words_given(programs[i].run))) continue;
        fprintf(stderr, "bench: %s and %s do not agree on the list %s (answers %u and %u)\n", programs[0].name, programs[i].name, l->name,
                (unsigned)s[0].outcome[0], (unsigned)own->outcome[0]);
        exit(1);
    }
}

/* An op that is not known is refused by 7. */
static bool knows(run_fn *run, uint32_t op)
{
    static struct state s;
    const uint32_t insn[6] = {[F_OP] = op};
    return run(list_settings, s.image, LIST_IMAGE, s.dst, LIST_DST, insn, 6, s.outcome) != 7;
}

/* The last op that all know: a commit before M-101 has no STORE. */
static uint32_t last_known(const struct program *programs, unsigned count)
{
    uint32_t last = OPS - 1;
    for (unsigned i = 0; i < count; i++)
        while (last > LOAD && !knows(programs[i].run, last)) last--;
    return last;
}

/* A commit before M-105 takes no more than 1,024 instructions, and refuses a longer list by 5. */
static bool all_take(const struct program *programs, unsigned count, const struct list *l)
{
    static struct state s;
    for (unsigned i = 0; i < count; i++) {
        once(programs[i].run, l, QUIET, &s);
        if (s.outcome[O_ANSWER] == 5) return false;
    }
    return true;
}

static int by_size(const void *a, const void *b)
{
    double x = *(const double *)a, y = *(const double *)b;
    return (x > y) - (x < y);
}

void take_turns(const struct task *tasks, unsigned count, unsigned rounds, unsigned us, double ns[count][rounds])
{
    unsigned times[count];
    for (unsigned i = 0; i < count; i++) times[i] = 1 + (unsigned)(1e3 * us / tasks[i].several(&tasks[i], 2));
    for (unsigned r = 0; r < rounds; r++)
        for (unsigned i = 0; i < count; i++) ns[i][r] = tasks[i].several(&tasks[i], times[i]) / (double)tasks[i].count;
}

double best(unsigned rounds, const double ns[rounds])
{
    double least = ns[0];
    for (unsigned r = 1; r < rounds; r++)
        if (ns[r] < least) least = ns[r];
    return least;
}

double ratio(unsigned rounds, const double ns[rounds], const double other[rounds])
{
    double ratios[rounds];
    for (unsigned r = 0; r < rounds; r++) ratios[r] = ns[r] / other[r];
    qsort(ratios, rounds, sizeof *ratios, by_size);
    return ratios[rounds / 2];
}

static void measure(const struct program *programs, unsigned count, const struct list *l, enum image_kind kind, unsigned rounds, unsigned us,
                    double ns[count][rounds])
{
    struct task tasks[count];
    must_agree(programs, count, l, kind);
    for (unsigned i = 0; i < count; i++) tasks[i] = (struct task){several, &programs[i], l->count, l, kind};
    take_turns(tasks, count, rounds, us, ns);
}

void print_times(const struct program *programs, unsigned count, unsigned rounds, unsigned us)
{
    const char *first = programs[0].name;
    printf("ns an instruction over 32 lanes from a mixed image, the best of %u rounds. Ratios: the middle one of the rounds; those in the\n"
           "last column are from a quiet image.\n\n",
           rounds);
    printf("| list |");
    for (unsigned i = 0; i < count; i++) printf(" %s |", programs[i].name);
    for (unsigned i = 1; i < count; i++) printf(i == 1 ? " **%s / %s** |" : " %s / %s |", first, programs[i].name);
    printf(" quiet: **%s / %s** |\n|---|", first, programs[1].name);
    for (unsigned i = 0; i < 2 * count; i++) printf("---|");
    printf("\n");

    const struct list *l;
    uint32_t last = last_known(programs, count);
    double ns[count][rounds];
    for (unsigned k = 0; (l = make_list(k, last)) != NULL; k++) {
        if (l->count == 0 || !all_take(programs, count, l)) continue;
        measure(programs, count, l, MIXED, rounds, us, ns);
        printf("| %-13s |", l->name);
        for (unsigned i = 0; i < count; i++) printf(" %7.1f |", best(rounds, ns[i]));
        for (unsigned i = 1; i < count; i++) printf(i == 1 ? " **%.2f** |" : " %.2f |", ratio(rounds, ns[0], ns[i]));
        measure(programs, count, l, QUIET, rounds, us, ns);
        printf(" **%.2f** |\n", ratio(rounds, ns[0], ns[1]));
        fflush(stdout);
    }
}
