/* A host in C: runs three lists, looks at registers, ties and stores, and walks over a list and back. examples/build-host builds and runs it. */
#include "replay.h"
#include "replay_text.h"

#include <stdio.h>
#include <string.h>

static uint32_t image[REPLAY_IMAGE], list[REPLAY_LIST];
static uint16_t dst[REPLAY_DST];

/* A listing: CONFIG fills register 12, in column 0 alone, with the constant of edition 1. */
static const char listing[] =
    "format=2\nedition=1\nsrcb=2\noffset=0000\ncursor=0000\nstride0=0000\nstride1=0000\nstride2=0000\nstride3=0000\ncount=00001\n"
    "op=CONFIG imm=00001 vb=00 vc=00 vd=12 mod=09\n";

/* A list as words, six an instruction: register 1 becomes 40 in every lane, register 2 becomes 40 plus twice the lane's number. */
static const uint32_t sum[] = {
    /* op          imm  vb  vc  vd  mod */
    REPLAY_OP_LOADI, 40, 0,  0,  1,  10,        /* register 1, low half */
    REPLAY_OP_IADD,   0, 0, 15,  2,   4,        /* register 2 plus register 15, which is twice the lane; 4: no flag */
    REPLAY_OP_IADD,   0, 0,  1,  2,   4,        /* and plus register 1 */
};

/* Register 2 gets the lesser of the two in every lane, and register 1 the greater. They are equal in lane 0 alone, which is in column 0. */
static const uint32_t sort[] = {REPLAY_OP_SWAP, 0, 0, 1, 2, 1};

static void show(uint32_t reg)
{
    const uint32_t *words = image + replay_register_start(REPLAY_IMAGE, reg);
    size_t count = replay_register_count(REPLAY_IMAGE, reg);
    printf("register %u:", (unsigned)reg);
    for (size_t lane = 0; lane < count; lane++) printf("%s%08X", lane % 8 == 0 ? "\n  " : " ", (unsigned)words[lane]);
    printf(count ? "\n" : " is not stored\n");
}

static void show_counts(const char *what, const uint32_t *counts)
{
    printf("%s by column:", what);
    for (size_t column = 0; column < REPLAY_COLUMNS; column++) printf(" %u", (unsigned)counts[column]);
    printf("\n");
}

static void run(const uint32_t settings[8], const uint32_t *words, size_t len)
{
    uint32_t outcome[REPLAY_OUTCOME];
    uint32_t answer = replay_run(settings, image, REPLAY_IMAGE, dst, REPLAY_DST, words, len, outcome);
    if (answer != REPLAY_DONE) {
        printf("refused by %u at instruction %u: %s\n", (unsigned)answer, (unsigned)outcome[REPLAY_OUTCOME_PLACE], replay_refusal_text(answer));
        return;
    }
    printf("%u steps, cursor %u\n", (unsigned)outcome[REPLAY_OUTCOME_STEPS], (unsigned)outcome[REPLAY_OUTCOME_CURSOR]);
    show_counts("ties", outcome + REPLAY_OUTCOME_TIES);
    show_counts("stores", outcome + REPLAY_OUTCOME_STORES);
}

/* Lane 31 of register 2 at each step over the list `sum`, to its end and back to its start. */
static void walk_over(const uint32_t settings[8])
{
    static uint32_t store[REPLAY_ENTRY * 3];    /* an entry for each of its instructions */
    const size_t len = sizeof sum / sizeof *sum, room = sizeof store / sizeof *store;
    const uint32_t *word = image + REPLAY_AT_REGISTER_2 + 31;
    uint32_t outcome[4], walk[2];
    if (replay_begin(settings, image, REPLAY_IMAGE, dst, REPLAY_DST, sum, len, outcome, walk) != REPLAY_DONE) return;
    printf("a walk at %u: %08X\n", (unsigned)walk[REPLAY_WALK_AT], (unsigned)*word);
    while (replay_forward(settings, image, REPLAY_IMAGE, dst, REPLAY_DST, sum, len, store, room, walk) == REPLAY_DONE)
        printf("forward to %u: %08X\n", (unsigned)walk[REPLAY_WALK_AT], (unsigned)*word);
    while (replay_back(settings, image, REPLAY_IMAGE, dst, REPLAY_DST, sum, len, store, room, walk) == REPLAY_DONE)
        printf("back to %u: %08X\n", (unsigned)walk[REPLAY_WALK_AT], (unsigned)*word);
}

int main(void)
{
    uint32_t settings[8], outcome[5];

    uint32_t answer = replay_read((const uint8_t *)listing, strlen(listing), list, REPLAY_LIST, settings, outcome);
    if (answer != REPLAY_DONE) {
        printf("refused by %u at %u: %s\n", (unsigned)answer, (unsigned)outcome[REPLAY_OUTCOME_PLACE], replay_refusal_text(answer));
        return 1;
    }
    printf("a listing: edition %u, first op %s\n", (unsigned)settings[REPLAY_SETTING_EDITION], replay_op_name(list[REPLAY_INSN_OP]));
    run(settings, list, outcome[REPLAY_OUTCOME_LENGTH]);
    show(12);

    run(settings, sum, sizeof sum / sizeof *sum);
    show(2);
    show(9);

    run(settings, sort, sizeof sort / sizeof *sort);
    show(2);

    /* Op 17 is none: refused, and image and Dst are as they were, though the first instruction is good. */
    static const uint32_t faulty[] = {REPLAY_OP_LOADI, 7, 0, 0, 1, 10, 17, 0, 0, 0, 0, 0};
    run(settings, faulty, sizeof faulty / sizeof *faulty);
    show(1);

    walk_over(settings);
    return 0;
}
