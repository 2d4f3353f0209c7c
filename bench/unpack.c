#include "unpack.h"

#include "lists.h"
#include "times.h"

#include <stdio.h>
#include <stdlib.h>
#include <string.h>

enum { CELLS = 65536 };     /* every one that there is */

_Alignas(64) static uint16_t cells[CELLS];
_Alignas(64) static uint32_t words[CELLS];

static void must_agree(const struct unpacker *unpackers, unsigned count)
{
    static uint32_t first[CELLS];
    for (unsigned n = 0; n < CELLS; n++) cells[n] = (uint16_t)n;
    unpackers[0].unpack(cells, first, CELLS);
    for (unsigned i = 1; i < count; i++) {
        memset(words, 0xFF, sizeof words);      /* no cell's word: what is not written then shows */
        unpackers[i].unpack(cells, words, CELLS);
        if (memcmp(words, first, sizeof words) == 0) continue;
        fprintf(stderr, "bench: %s and %s do not unpack every cell alike\n", unpackers[0].name, unpackers[i].name);
        exit(1);
    }
}

static double several(const struct task *task, unsigned times)
{
    const struct unpacker *by = task->by;
    double start = now_ns();
    for (unsigned t = 0; t < times; t++) by->unpack(cells, words, task->count);
    return (now_ns() - start) / times;
}

void print_unpacking(const struct unpacker *unpackers, unsigned count, unsigned rounds, unsigned us)
{
    static const size_t counts[] = {LIST_DST, 1024};        /* the second are in the first cache, words and all */
    double ns[count][rounds];
    must_agree(unpackers, count);
    printf("\nns a cell of BF16 unpacked by the routine alone, the best of %u rounds. Ratios: the middle one of the rounds.\n\n| cells |", rounds);
    for (unsigned i = 0; i < count; i++) printf(" %s |", unpackers[i].name);
    for (unsigned i = 1; i < count; i++) printf(" **%s / %s** |", unpackers[0].name, unpackers[i].name);
    printf("\n|---|");
    for (unsigned i = 1; i < 2 * count; i++) printf("---|");
    printf("\n");
    for (unsigned k = 0; k < sizeof counts / sizeof *counts; k++) {
        struct task tasks[count];
        for (unsigned i = 0; i < count; i++) tasks[i] = (struct task){.several = several, .by = &unpackers[i], .count = counts[k]};
        take_turns(tasks, count, rounds, us, ns);
        printf("| %zu |", counts[k]);
        for (unsigned i = 0; i < count; i++) printf(" %.4f |", best(rounds, ns[i]));
        for (unsigned i = 1; i < count; i++) printf(" **%.2f** |", ratio(rounds, ns[0], ns[i]));
        printf("\n");
    }
}
