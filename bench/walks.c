#include "walks.h"

#include "lists.h"
#include "plain.h"
#include "times.h"

#include "../tests/independent/independent.h"

#include <stdlib.h>
#include <string.h>

/* As replay_begin, and as replay_forward and replay_back. */
typedef uint32_t begin_fn(const uint32_t settings[8], const uint32_t *image, size_t image_len, const uint16_t *dst, size_t dst_len,
                          const uint32_t *list, size_t list_len, uint32_t outcome[4], uint32_t walk[2]);
typedef uint32_t step_fn(const uint32_t settings[8], uint32_t *image, size_t image_len, uint16_t *dst, size_t dst_len,
                         const uint32_t *list, size_t list_len, uint32_t *store, size_t store_len, uint32_t walk[2]);

/* The library's; and where CLANG is defined, plain_walk.c a second time, compiled by clang. */
run_fn proved_run;
begin_fn proved_begin, plain_clang_begin;
step_fn proved_forward, proved_back, plain_clang_forward, plain_clang_back;

static const struct walker {
    const char *name;
    begin_fn *begin;
    step_fn *forward, *back;
} walkers[] = {
    {"proved", proved_begin, proved_forward, proved_back},
    {"plain", plain_begin, plain_forward, plain_back},
#ifdef CLANG
    {"plain by clang", plain_clang_begin, plain_clang_forward, plain_clang_back},
#endif
};
enum { WALKERS = sizeof walkers / sizeof *walkers };

/* Compared */

static uint32_t begin_by(const struct walker *by, struct walk_case *w, uint32_t outcome[4])
{
    const struct run_case *r = &w->run;
    return by->begin(r->settings, r->image, r->image_len, r->dst, r->dst_len, r->list, r->list_len, outcome, w->walk);
}

static uint32_t step_by(step_fn *step, struct walk_case *w)
{
    struct run_case *r = &w->run;
    return step(r->settings, r->image, r->image_len, r->dst, r->dst_len, r->list, r->list_len, w->store, w->store_len, w->walk);
}

static bool alike(const struct walk_case *a, const struct walk_case *b)
{
    return memcmp(a->walk, b->walk, sizeof a->walk) == 0 && memcmp(a->run.image, b->run.image, sizeof a->run.image) == 0 &&
           memcmp(a->run.dst, b->run.dst, sizeof a->run.dst) == 0 && memcmp(a->store, b->store, sizeof a->store) == 0;
}

static void must(bool good, const struct walker *by, const char *where, size_t at)
{
    if (good) return;
    fprintf(stderr, "bench: %s differs from the independent program in a walk: %s, %zu\n", by->name, where, at);
    exit(1);
}

struct met { unsigned walks, forward, back, refused; };

/* A case, call by call; `right` is the independent program's. */
static void must_follow(const struct walker *by, struct walk_case *own, struct walk_case *right, struct met *met)
{
    uint32_t outcome[4], expected[4], answer;
    struct run_case *r = &right->run;
    memcpy(own, right, sizeof *own);
    answer = ind_begin(r->settings, r->image, r->image_len, r->dst_len, r->list, r->list_len, expected, right->walk);
    must(begin_by(by, own, outcome) == answer && memcmp(outcome, expected, sizeof outcome) == 0 && alike(own, right), by, "begin", answer);
    for (size_t i = 0; i < right->calls; i++) {
        const struct call *c = &right->call[i];
        if (!ind_call(right, c, &answer)) {
            ind_call(own, c, &answer);      /* what a host does between steps */
            continue;
        }
        must(step_by(c->kind == FORWARD ? by->forward : by->back, own) == answer && alike(own, right), by,
             c->kind == FORWARD ? "forward, call" : "back, call", i);
        met->refused += answer != 0, met->forward += answer == 0 && c->kind == FORWARD, met->back += answer == 0 && c->kind == BACK;
    }
    met->walks++;
}

void compare_walks(unsigned count)
{
    static struct any_case c;
    static struct walk_case own, right;
    struct met met = {0};
    FILE *cases = tmpfile();
    if (cases == NULL) exit(1);
    ind_cases(20261116, 0, 0, 0, count, cases);
    for (rewind(cases); ind_next(cases, &c);)
        for (unsigned i = 0; i < WALKERS; i++) {
            memcpy(&right, &c.walk, sizeof right);
            must_follow(&walkers[i], &own, &right, &met);
        }
    fclose(cases);
    printf("%u random walks, %u steps forward, %u back and %u refused: all agree.\n\n", met.walks / WALKERS, met.forward / WALKERS,
           met.back / WALKERS, met.refused / WALKERS);
    if (met.back != 0 && met.refused != 0) return;
    fprintf(stderr, "bench: no step back, or none refused, among the random walks\n");
    exit(1);
}

/* Timed */

/* What all work on, in one and the same place. */
static struct lent {
    _Alignas(64) uint32_t image[LIST_IMAGE];
    _Alignas(64) uint16_t dst[LIST_DST];
    _Alignas(64) uint32_t store[ENTRY * LIST_COUNT];
    uint32_t walk[2];
} lent;

static void lend_image(const struct list *l, enum image_kind kind) { memcpy(lent.image, l->image[kind], sizeof lent.image); }

static inline void take_step(step_fn *step, const struct list *l)
{
    step(list_settings, lent.image, LIST_IMAGE, lent.dst, LIST_DST, l->words, 6 * l->count, lent.store, ENTRY * l->count, lent.walk);
}

/* From the start to the end. It is not begun by begin, which checks the whole list and is no part of a step. */
static void go_forward(const struct walker *by, const struct list *l, enum image_kind kind)
{
    lend_image(l, kind);
    lent.walk[W_AT] = 0, lent.walk[W_CURSOR] = list_settings[S_CURSOR];
    for (size_t i = 0; i < l->count; i++) take_step(by->forward, l);
}

/* From the end to the start, by the entries that are there. */
static void go_back(const struct walker *by, const struct list *l, enum image_kind kind)
{
    (void)kind;
    lent.walk[W_AT] = (uint32_t)l->count;
    for (size_t i = 0; i < l->count; i++) take_step(by->back, l);
}

static void run_all(const struct walker *by, const struct list *l, enum image_kind kind)
{
    uint32_t outcome[OUTCOME];
    (void)by;
    lend_image(l, kind);
    proved_run(list_settings, lent.image, LIST_IMAGE, lent.dst, LIST_DST, l->words, 6 * l->count, outcome);
}

/* Each instruction as a list of its own, from the cursor that the one before it left. */
static void run_each(const struct walker *by, const struct list *l, enum image_kind kind)
{
    uint32_t here[8], outcome[OUTCOME];
    (void)by;
    lend_image(l, kind);
    memcpy(here, list_settings, sizeof here);
    for (size_t i = 0; i < l->count; i++) {
        proved_run(here, lent.image, LIST_IMAGE, lent.dst, LIST_DST, l->words + 6 * i, 6, outcome);
        here[S_CURSOR] = outcome[O_CURSOR];
    }
}

static void copy_each(const struct walker *by, const struct list *l, enum image_kind kind)
{
    (void)by, (void)kind;
    for (size_t i = 0; i < l->count; i++) memcpy(lent.store + ENTRY * i, lent.image, sizeof lent.image);
}

/* What is timed: the library's run both ways, memcpy, and then each walker, first forwards and then back. */
enum { RUN, EACH, COPY, FORWARDS, BACKS = FORWARDS + WALKERS, JOBS = BACKS + WALKERS };

struct job {
    void (*once)(const struct walker *by, const struct list *l, enum image_kind kind);
    const struct walker *by;
};

/* Dst is copied before the clock starts, as for runs; and whoever goes back has gone forward before. */
static double several(const struct task *task, unsigned times)
{
    const struct job *job = task->by;
    memcpy(lent.dst, list_dst, sizeof lent.dst);
    if (job->once == go_back) go_forward(job->by, task->list, task->kind);
    double start = now_ns();
    for (unsigned t = 0; t < times; t++) job->once(job->by, task->list, task->kind);
    return (now_ns() - start) / times;
}

/* At the end all have one image, Dst and store, image and Dst those of the independent program's run; and at the start again what they began
 * with. */
static void must_agree(const struct list *l, enum image_kind kind)
{
    static struct lent ran, first;
    uint32_t outcome[OUTCOME];
    memcpy(ran.image, l->image[kind], sizeof ran.image);
    memcpy(ran.dst, list_dst, sizeof ran.dst);
    ind_run(list_settings, ran.image, LIST_IMAGE, ran.dst, LIST_DST, l->words, 6 * l->count, outcome);
    for (unsigned i = 0; i < WALKERS; i++) {
        memcpy(lent.dst, list_dst, sizeof lent.dst);
        memset(lent.store, 0xFF, sizeof lent.store);
        go_forward(&walkers[i], l, kind);
        if (i == 0) memcpy(&first, &lent, sizeof first);
        bool good = memcmp(&lent, &first, sizeof first) == 0 && lent.walk[W_AT] == l->count && lent.walk[W_CURSOR] == outcome[O_CURSOR] &&
                    memcmp(lent.image, ran.image, sizeof ran.image) == 0 && memcmp(lent.dst, ran.dst, sizeof ran.dst) == 0;
        go_back(&walkers[i], l, kind);
        if (good && lent.walk[W_AT] == 0 && lent.walk[W_CURSOR] == list_settings[S_CURSOR] &&
            memcmp(lent.image, l->image[kind], sizeof lent.image) == 0 && memcmp(lent.dst, list_dst, sizeof lent.dst) == 0)
            continue;
        fprintf(stderr, "bench: %s does not walk the list %s as it should\n", walkers[i].name, l->name);
        exit(1);
    }
}

static void print_heads(void)
{
    printf("| list | run | run of one | copy |");
    for (unsigned i = 0; i < WALKERS; i++) printf(" %s |", i == 0 ? "forward" : walkers[i].name);
    for (unsigned i = 0; i < WALKERS; i++) printf(" %s |", i == 0 ? "back" : walkers[i].name);
    for (unsigned i = 1; i < WALKERS; i++) printf(i == 1 ? " **forward / %s** |" : " forward / %s |", walkers[i].name);
    printf(" forward / (run of one + copy) |");
    for (unsigned i = 1; i < WALKERS; i++) printf(i == 1 ? " **back / %s** |" : " back / %s |", walkers[i].name);
    printf("\n|---|");
    for (unsigned i = 0; i < JOBS + 2 * WALKERS - 1; i++) printf("---|");
    printf("\n");
}

void print_walks(unsigned rounds, unsigned us)
{
    struct job jobs[JOBS] = {[RUN] = {run_all, NULL}, [EACH] = {run_each, NULL}, [COPY] = {copy_each, NULL}};
    for (unsigned i = 0; i < WALKERS; i++) {
        jobs[FORWARDS + i] = (struct job){go_forward, &walkers[i]};
        jobs[BACKS + i] = (struct job){go_back, &walkers[i]};
    }
    printf("\nns a step of a walk over 32 lanes from a mixed image, the best of %u rounds; and beside it an instruction of a run of the whole\n"
           "list, a run of that instruction alone, and a copy of 3 KB into the step's entry. Ratios: the middle one of the rounds.\n\n",
           rounds);
    print_heads();

    const struct list *l;
    double ns[JOBS][rounds], parts[rounds];
    for (unsigned k = 0; (l = make_list(k, OPS - 1)) != NULL; k++) {
        if (l->narrow || l->count > LIST_COUNT) continue;
        struct task tasks[JOBS];
        must_agree(l, MIXED);
        for (unsigned i = 0; i < JOBS; i++) tasks[i] = (struct task){several, &jobs[i], l->count, l, MIXED};
        take_turns(tasks, JOBS, rounds, us, ns);
        for (unsigned r = 0; r < rounds; r++) parts[r] = ns[EACH][r] + ns[COPY][r];
        printf("| %-10s |", l->name);
        for (unsigned i = 0; i < JOBS; i++) printf(" %6.1f |", best(rounds, ns[i]));
        for (unsigned i = 1; i < WALKERS; i++) printf(i == 1 ? " **%.2f** |" : " %.2f |", ratio(rounds, ns[FORWARDS], ns[FORWARDS + i]));
        printf(" %.2f |", ratio(rounds, ns[FORWARDS], parts));
        for (unsigned i = 1; i < WALKERS; i++) printf(i == 1 ? " **%.2f** |" : " %.2f |", ratio(rounds, ns[BACKS], ns[BACKS + i]));
        printf("\n");
        fflush(stdout);
    }
}
