/* A walk over a list (M-103) in C, written for speed, by the steps of plain.c.
 *
 * It is compiled by itself: compilers make one function of plain_run only while its steps have one call, and with two a run's short operations
 * take a tenth longer and more. */
#define STEPS_ONLY
#include "plain.c"

/* The words of a walk, and of an entry of its store. */
enum { AT, CURSOR };
enum { KEPT_CURSOR = IMAGE_WORDS, KEPT_ADDRESS, KEPT_CELLS, ENTRY = KEPT_CELLS + LANES };

uint32_t plain_begin(const uint32_t settings[8], const uint32_t *image, size_t image_len, const uint16_t *dst, size_t dst_len,
                     const uint32_t *list, size_t list_len, uint32_t outcome[4], uint32_t walk[2])
{
    uint32_t place = 0, answer = fault(settings, image, image_len, dst_len, list, list_len, list_len, &place);
    (void)dst;
    outcome[0] = answer, outcome[1] = 0, outcome[2] = place, outcome[3] = settings[3];
    if (answer == 0) walk[AT] = 0, walk[CURSOR] = settings[3];
    return answer;
}

/* 1 to 6, as of a run; of the list no word is looked at. */
static inline uint32_t lent_fault(const uint32_t *settings, const uint32_t *image, size_t image_len, size_t dst_len, const uint32_t *list,
                                  size_t list_len, const uint32_t *walk)
{
    uint32_t place, answer = fault(settings, image, image_len, dst_len, list, list_len, 0, &place);
    return walk[CURSOR] > 1023 && answer != 1 && answer != 2 ? 3 : answer;
}

/* The masks of the lanes whose cell is the odd one of its pair. */
static inline void odd_cells(const uint32_t *image, uint32_t address, row odd)
{
    const uint32_t *config = image + LANES * LANE_CONFIG;
    EACH_COLUMN(j) odd[j] = odd[8 + j] = odd[16 + j] = odd[24 + j] = has(address, 1) | has(config[j], ODD_COLUMN);
}

static inline void keep(const struct run *r, const uint32_t *insn, uint32_t *entry)
{
    uint32_t address = (insn[IMM] + r->offset + r->cursor) % 1024, *kept = entry + KEPT_CELLS;
    memcpy(entry, r->image, IMAGE_WORDS * sizeof *entry);
    entry[KEPT_CURSOR] = r->cursor, entry[KEPT_ADDRESS] = address;
    if (insn[OP] == STORE) {
        const uint16_t *cells = r->dst + address / 4 * 64;
        row odd;
        odd_cells(r->image, address, odd);
        EACH_LANE(n) {
            uint32_t both = pair(cells, n);
            kept[n] = pick(odd[n], both >> 16, both & 0xFFFF);
        }
    } else {
        memcpy(kept, register9, sizeof register9);      /* zeros */
    }
}

uint32_t plain_forward(const uint32_t settings[8], uint32_t *image, size_t image_len, uint16_t *dst, size_t dst_len,
                       const uint32_t *list, size_t list_len, uint32_t *store, size_t store_len, uint32_t walk[2])
{
    uint32_t answer = lent_fault(settings, image, image_len, dst_len, list, list_len, walk);
    size_t at = walk[AT];
    if (answer != 0) return answer;
    if (at >= list_len / WORDS || store_len < ENTRY * (at + 1)) return 12;
    const uint32_t *insn = list + WORDS * at;
    answer = insn_fault(insn);
    if (answer != 0) return answer;

    struct run r;
    begin(&r, settings, image, dst);
    r.cursor = walk[CURSOR];
    keep(&r, insn, store + ENTRY * at);
    step(&r, insn);
    end(&r);
    walk[AT]++, walk[CURSOR] = r.cursor;
    return 0;
}

/* The entry's own image says which cells are the odd ones. */
static inline void put_back(const uint32_t *entry, uint16_t *dst)
{
    const uint32_t *kept = entry + KEPT_CELLS, address = entry[KEPT_ADDRESS] % 1024;
    uint16_t *cells = dst + address / 4 * 64;
    row odd;
    odd_cells(entry, address, odd);
    EACH_LANE(n) put_pair(cells, n, pick(0xFFFF ^ odd[n], twice(kept[n] & 0xFFFF), pair(cells, n)));
}

uint32_t plain_back(const uint32_t settings[8], uint32_t *image, size_t image_len, uint16_t *dst, size_t dst_len,
                    const uint32_t *list, size_t list_len, uint32_t *store, size_t store_len, uint32_t walk[2])
{
    uint32_t answer = lent_fault(settings, image, image_len, dst_len, list, list_len, walk);
    size_t at = walk[AT];
    if (answer != 0) return answer;
    if (at == 0 || at > list_len / WORDS || store_len < ENTRY * at) return 12;

    const uint32_t *entry = store + ENTRY * (at - 1);
    memcpy(image, entry, IMAGE_WORDS * sizeof *image);
    if (list[WORDS * (at - 1) + OP] == STORE) put_back(entry, dst);
    walk[AT]--, walk[CURSOR] = entry[KEPT_CURSOR];
    return 0;
}
