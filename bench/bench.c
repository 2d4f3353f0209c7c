/* Times the proved run beside plain.c, which is C written for speed, and beside the independent program, which says what is right; then
 * walks, listings, and BF16's routine by itself.
 *
 *   bench [ROUNDS [MICROSECONDS]]
 *
 * All must do what the independent program does before they are timed: on random runs, whole and damaged, on single instructions with
 * fields at their limits, on random walks, and on listings, whole and damaged. */
#include "listings.h"
#include "lists.h"
#include "plain.h"
#include "times.h"
#include "unpack.h"
#include "walks.h"

#include "../tests/independent/independent.h"

#include <stdlib.h>
#include <string.h>

/* The library's replay_run and its BF16 routine; and where CLANG is defined, plain.c a second time, compiled by clang. */
run_fn proved_run, plain_clang_run;
unpack_fn proved_unpack, plain_clang_unpack;

static const struct program programs[] = {
    {"proved", proved_run},
    {"plain", plain_run},
#ifdef CLANG
    {"plain by clang", plain_clang_run},
#endif
    {"independent", ind_run},
};
enum { PROGRAMS = sizeof programs / sizeof *programs };

static const struct unpacker unpackers[] = {
    {"proved", proved_unpack},
    {"plain", plain_unpack},
#ifdef CLANG
    {"plain by clang", plain_clang_unpack},
#endif
};

/* What a program leaves of a case. */
struct left {
    uint32_t image[ROOM_IMAGE], outcome[OUTCOME];
    uint16_t dst[ROOM_DST];
};

static uint32_t run_case(const struct program *p, const struct run_case *c, struct left *left)
{
    memcpy(left->image, c->image, sizeof c->image);
    memcpy(left->dst, c->dst, sizeof c->dst);
    memset(left->outcome, 0xFF, sizeof left->outcome);      /* what is not written then shows */
    return p->run(c->settings, left->image, c->image_len, left->dst, c->dst_len, c->list, c->list_len, left->outcome);
}

/* Of the cases compared; ties and stores are cases that have some. */
struct met { unsigned cases, refused, ties, stores; };

static bool any_counted(const uint32_t counts[COLUMNS])
{
    uint32_t any = 0;
    for (unsigned j = 0; j < COLUMNS; j++) any |= counts[j];
    return any != 0;
}

static void must_match(const struct run_case *c, struct met *met)
{
    static struct left right, left;
    uint32_t answer = run_case(&programs[PROGRAMS - 1], c, &right);
    for (unsigned i = 0; i < PROGRAMS - 1; i++) {
        if (run_case(&programs[i], c, &left) == answer && memcmp(left.image, right.image, sizeof left.image) == 0 &&
            memcmp(left.dst, right.dst, sizeof left.dst) == 0 && memcmp(left.outcome, right.outcome, sizeof left.outcome) == 0)
            continue;
        fprintf(stderr, "bench: %s differs from the independent program (answers %u and %u) on %zu words, the first op %u with mod %u\n",
                programs[i].name, (unsigned)left.outcome[O_ANSWER], (unsigned)answer, c->list_len, (unsigned)c->list[F_OP],
                (unsigned)c->list[F_MOD]);
        exit(1);
    }
    met->cases++, met->refused += answer != 0;
    met->ties += any_counted(right.outcome + O_TIES), met->stores += any_counted(right.outcome + O_STORES);
}

/* Cases without a tie, or without a store, would say nothing of the counts. */
static void say(const struct met *met, const char *what)
{
    printf("%u %s, %u of them refused, %u with ties, %u with stores: all agree.\n", met->cases, what, met->refused, met->ties, met->stores);
    if (met->ties != 0 && met->stores != 0) return;
    fprintf(stderr, "bench: no ties or no stores among the %s\n", what);
    exit(1);
}

static void compare_random(unsigned count)
{
    static struct any_case c;
    struct met met = {0};
    FILE *cases = tmpfile();
    if (cases == NULL) exit(1);
    ind_cases(20261115, count, 0, 0, 0, cases);
    for (rewind(cases); ind_next(cases, &c);) must_match(&c.run, &met);
    fclose(cases);
    say(&met, "random runs");
}

/* Each op with each mod, and one other field at a limit. */
static void compare_fields(void)
{
    static const uint32_t values[] = {0, 1, 3, 4, 7, 8, 11, 12, 15, 16, 1023, 1024, 4095, 4096, 65535, 65536, 0xFFFFFFFF};
    static struct run_case c;
    struct met met = {0};
    const struct list *mix = make_list(0, OPS - 1);
    c.image_len = LIST_IMAGE, c.dst_len = LIST_DST, c.list_len = 6;
    memcpy(c.settings, list_settings, sizeof list_settings);
    memcpy(c.image, mix->image[MIXED], sizeof mix->image[MIXED]);
    memcpy(c.dst, list_dst, sizeof list_dst);
    for (uint32_t op = 0; op <= OPS; op++)
        for (uint32_t mod = 0; mod <= 16; mod++)
            for (unsigned field = F_IMM; field <= F_VD; field++)
                for (unsigned v = 0; v < sizeof values / sizeof *values; v++) {
                    memset(c.list, 0, 6 * sizeof *c.list);
                    c.list[F_OP] = op, c.list[F_MOD] = mod, c.list[field] = values[v];
                    must_match(&c, &met);
                }
    say(&met, "single instructions");
}

int main(int argc, char **argv)
{
    unsigned rounds = argc > 1 ? (unsigned)atoi(argv[1]) : 50, us = argc > 2 ? (unsigned)atoi(argv[2]) : 400;
    compare_random(5000);
    compare_fields();
    compare_listings(500);
    compare_walks(500);
    print_times(programs, PROGRAMS, rounds, us);
    print_walks(rounds, us);
    print_listings(rounds, us);
    print_unpacking(unpackers, sizeof unpackers / sizeof *unpackers, rounds, us);
    return 0;
}
