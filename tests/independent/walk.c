/* A list stepped through, forwards and backwards: M-103. */
#include "independent.h"

#include <string.h>

_Static_assert(ENTRY == 802, "an entry has 802 words");

/* Begun as a run is: the whole list is checked, and what is refused leaves the walk as it was. */
uint32_t ind_begin(const uint32_t settings[8], const uint32_t *image, size_t image_len, size_t dst_len,
                   const uint32_t *list, size_t list_len, uint32_t outcome[4], uint32_t walk[2])
{
    uint32_t place, answer = ind_run_fault(settings, image, image_len, dst_len, list, list_len, &place);
    outcome[O_ANSWER] = answer;
    outcome[O_STEPS] = 0;
    outcome[O_PLACE] = place;
    outcome[O_CURSOR] = settings[S_CURSOR];
    if (answer != 0) return answer;
    walk[W_AT] = 0;
    walk[W_CURSOR] = settings[S_CURSOR];
    return 0;
}

/* 1 to 6 as for a run. The walk's cursor is the one that counts, but the settings' own is checked as well. */
static uint32_t step_fault(const uint32_t settings[8], const uint32_t *image, size_t image_len, size_t dst_len, size_t list_len,
                           const uint32_t walk[2])
{
    uint32_t fault = ind_lent_fault(settings, image, image_len, dst_len, list_len);
    if (fault == 1 || fault == 2) return fault;
    return walk[W_CURSOR] > 1023 ? 3 : fault;
}

/* The cell that a STORE at the address would overwrite, were the lane enabled. Lane c is row 0's lane of column c. */
static uint16_t *target(uint16_t *dst, const uint32_t *image, uint32_t address, unsigned lane)
{
    unsigned row = address / 4 * 4 + lane / 8, column = lane % 8;
    bool odd = address / 2 % 2 == 1 || image[LANES * SLOT_CONFIG + column] / 32 % 2 == 1;
    return dst + 16 * row + 2 * column + odd;
}

static void keep(uint32_t *entry, const uint32_t settings[8], const uint32_t *image, uint16_t *dst, const uint32_t *insn)
{
    const uint32_t address = (insn[F_IMM] + settings[S_OFFSET] + settings[S_CURSOR]) % 1024;
    memcpy(entry, image, IMAGE_WORDS * sizeof *entry);
    entry[E_CURSOR] = settings[S_CURSOR];
    entry[E_ADDRESS] = address;
    for (unsigned lane = 0; lane < LANES; lane++) entry[E_CELLS + lane] = insn[F_OP] == STORE ? *target(dst, image, address, lane) : 0;
}

/* A step is a run of one instruction from the walk's cursor. */
uint32_t ind_forward(const uint32_t settings[8], uint32_t *image, size_t image_len, uint16_t *dst, size_t dst_len,
                     const uint32_t *list, size_t list_len, uint32_t *store, size_t store_len, uint32_t walk[2])
{
    uint32_t fault = step_fault(settings, image, image_len, dst_len, list_len, walk), here[8], outcome[RUN_OUTCOME];
    const size_t at = walk[W_AT];
    if (fault != 0) return fault;
    if (at >= list_len / 6 || store_len < ENTRY * at + ENTRY) return 12;
    const uint32_t *insn = list + 6 * at;
    fault = ind_insn_fault(insn);
    if (fault != 0) return fault;

    memcpy(here, settings, sizeof here);
    here[S_CURSOR] = walk[W_CURSOR];
    keep(store + ENTRY * at, here, image, dst, insn);
    ind_run(here, image, image_len, dst, dst_len, insn, 6, outcome);
    walk[W_AT] += 1;
    walk[W_CURSOR] = outcome[O_CURSOR];
    return 0;
}

/* The entry may be damaged: its words are taken as they are, and its own image says which column a cell is in. */
uint32_t ind_back(const uint32_t settings[8], uint32_t *image, size_t image_len, uint16_t *dst, size_t dst_len,
                  const uint32_t *list, size_t list_len, const uint32_t *store, size_t store_len, uint32_t walk[2])
{
    uint32_t fault = step_fault(settings, image, image_len, dst_len, list_len, walk);
    const size_t at = walk[W_AT];
    if (fault != 0) return fault;
    if (at == 0 || at > list_len / 6 || store_len < ENTRY * at) return 12;

    const uint32_t *insn = list + 6 * (at - 1), *entry = store + ENTRY * (at - 1);
    if (insn[F_OP] == STORE)
        for (unsigned lane = 0; lane < LANES; lane++) *target(dst, entry, entry[E_ADDRESS] % 1024, lane) = (uint16_t)entry[E_CELLS + lane];
    memcpy(image, entry, IMAGE_WORDS * sizeof *image);
    walk[W_AT] -= 1;
    walk[W_CURSOR] = entry[E_CURSOR];
    return 0;
}
