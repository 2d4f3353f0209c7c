/* The run of document 01 in C, written for speed.
 *
 * Every loop goes over a row of 32 lanes and has no branch: what the instruction decides is decided before it, and what a lane does not do
 * is masked out. Compilers make vectors of such loops. A truth about a lane is therefore a mask: 0, or all ones.
 *
 * Image and Dst are worked on where they lie, save for the image's flags, which are masks during a run.
 *
 * Under STEPS_ONLY, for walks, nothing is counted: neither ties nor stores. */
#include "plain.h"

#include <stdbool.h>
#include <string.h>

enum { LANES = 32, COLUMNS = 8, IMAGE_WORDS = 768, DST_CELLS = 16384, MAX_INSNS = 16384 };

enum { LOAD = 1, LOADI, LUT, SWAP, CONFIG, IADD, ABS, AND, OR, XOR, NOT, LZ, EXEXP, EXMAN, NOP, STORE };

/* The words of an instruction, the rows of an image after registers 0 to 7, and the bits of LaneConfig. */
enum { OP, IMM, VB, VC, VD, MOD, WORDS };
enum { R11 = 8, LANE_CONFIG = 12, LANE_FLAG, USE_FLAG, TEMPLATE, SEQUENCE = 19, MISC = 23 };
enum { FP16_INF = 0, BLOCK = 1, INDEX = 2, CAPTURE = 3, NO_BACKDOOR = 4, ODD_COLUMN = 5, EXCHANGE = 8 };

typedef uint32_t row[LANES];
#define EIGHT(w) w, w, w, w, w, w, w, w
#define BY_ROWS(a, b, c, d) { EIGHT(a), EIGHT(b), EIGHT(c), EIGHT(d) }
#define ALL(w) BY_ROWS(w, w, w, w)

#ifdef STEPS_ONLY
enum { COUNTS = false };
#else
enum { COUNTS = true };
#endif

struct run {
    _Alignas(64) row flag, free, on;    /* LaneFlag is 1, UseFlag is 0, and either: enabled. So a lane that is not enabled has flag 0. */
    row idle[2];                        /* takes what SWAP would store to registers that are never stored */
    uint32_t ties[COLUMNS];             /* how often lanes met an equal pair in a SWAP with mod other than 0 */
    uint32_t stores[3][COLUMNS];        /* how often lanes made no store, one, or two at once */
    uint32_t owed, loads, captures;     /* not yet counted: what stores once in each enabled lane, LOADs, and LOADs with vd below 4 */
    bool by_flag;                       /* a lane may be enabled by its flag alone */
    uint32_t *image;
    const uint32_t *reg[16];            /* the row of each register */
    uint16_t *dst;
    const uint32_t *stride;
    uint32_t edition, srcb, offset, cursor;
};

/* In no loop does a lane need a word that another lane stores, even where two operands are one row. Compilers have to be told. And gcc is not
 * to unroll the eight columns: it would do so before it comes to vectors, and at times keep single words. */
#if defined __clang__
#define EACH(count, n) _Pragma("clang loop vectorize(assume_safety) interleave_count(2) unroll(disable)") for (unsigned n = 0; n < count; n++)
#define EACH_COLUMN(j) EACH(COLUMNS, j)
#else
#define EACH(count, n) _Pragma("GCC ivdep") for (unsigned n = 0; n < count; n++)
#define EACH_COLUMN(j) _Pragma("GCC unroll 1") EACH(COLUMNS, j)
#endif
#define EACH_LANE(n) EACH(LANES, n)

/* For SWAP: gcc would else leave it by itself, and its loops with the branches that constants take out. */
#define INLINE static inline __attribute__((always_inline))

static inline uint32_t *at(const struct run *r, unsigned slot) { return r->image + LANES * slot; }

static inline void put_flag(struct run *r, unsigned n, uint32_t flag)
{
    r->flag[n] = flag;
    r->on[n] = r->free[n] | flag;
}

/* Masks. Numbers are compared, and shifted right, as signed ones: SSE2 has single instructions for these. */
static inline uint32_t full(bool truth) { return 0u - truth; }
static inline uint32_t less(uint32_t a, uint32_t b) { return full((int32_t)a < (int32_t)b); }
static inline uint32_t shifted(uint32_t word, unsigned by) { return (uint32_t)((int32_t)word >> by); }
static inline uint32_t has(uint32_t word, unsigned bit) { return shifted(word << (31 - bit), 31); }
static inline uint32_t sign(uint32_t word) { return has(word, 31); }
static inline uint32_t pick(uint32_t mask, uint32_t yes, uint32_t no) { return no ^ ((no ^ yes) & mask); }
static inline uint32_t negated(uint32_t mask, uint32_t word) { return (word ^ mask) - mask; }

union bits { uint32_t word; float number; };

/* Counts
 *
 * Most operations store once in each enabled lane, and LOAD as LaneConfig says besides. These are only noted, by one number for all lanes, and
 * counted at once: at the end, and before flags or LaneConfig change. A lane that is not enabled stays so for the rest of a run, so that
 * flags change nothing any more once no lane is enabled by its flag alone. SWAP, LUT by register 7 and CONFIG count by their masks. */

static inline uint32_t of_column(const uint32_t *lanes, unsigned j) { return lanes[j] + lanes[8 + j] + lanes[16 + j] + lanes[24 + j]; }

/* So many stores at once in each lane of a row of masks. A mask is minus 1. */
static inline void count(struct run *r, unsigned stores, const uint32_t *lanes)
{
    uint32_t *counted = r->stores[stores];
    if (COUNTS) EACH_COLUMN(j) counted[j] -= of_column(lanes, j);
}

static inline void count_owed(struct run *r)
{
    uint32_t owed = r->owed, *counted = r->stores[1];
    const uint32_t *on = r->on;
    EACH_COLUMN(j) counted[j] += (on[j] & owed) + (on[8 + j] & owed) + (on[16 + j] & owed) + (on[24 + j] & owed);
    r->owed = 0;
}

/* Whether LOAD stores in a lane, and whether it captures the place too. */
static inline uint32_t takes(uint32_t on, uint32_t config) { return on & ~has(config, BLOCK); }
static inline uint32_t captures(uint32_t config) { return full((~config & (1 << INDEX | 1 << CAPTURE)) == 0); }

static inline void count_loads(struct run *r)
{
    const uint32_t *config = at(r, LANE_CONFIG), loads = 0u - r->loads, captured = 0u - r->captures;    /* as many masks */
    row stores;
    EACH_LANE(n) stores[n] = takes(r->on[n], config[n]) & (loads + (captures(config[n]) & captured));
    count(r, 1, stores);
    r->loads = r->captures = 0;
}

static inline void count_before_flags(struct run *r)
{
    uint32_t by_flag = 0;
    count_owed(r);
    if (r->loads != 0) count_loads(r);
    EACH_LANE(n) by_flag |= r->flag[n] & ~r->free[n];
    r->by_flag = by_flag != 0;
}

/* An operation that stores once in each enabled lane; and one that may change flags, if `changes` is not 0. */
static inline void note(struct run *r)
{
    if (COUNTS) r->owed++;
}

static inline void note_before_flags(struct run *r, uint32_t changes)
{
    note(r);
    if (COUNTS && __builtin_expect(r->by_flag && changes != 0, false)) count_before_flags(r);
}

/* LOAD */

static inline uint32_t fp16(uint32_t cell, uint32_t config)
{
    uint32_t exponent = cell & 0x1F, number = (cell & 0x7FE0) << 8 | ((exponent << 23) + (full(exponent != 0) & 112u << 23));
    return (cell & 0x8000) << 16 | pick(has(config, FP16_INF) & full((cell & 0x7FFF) == 0x7FFF), 0x7F800000, number);
}

static inline uint32_t bf16(uint32_t cell) { return (cell & 0x8000) << 16 | (cell & 0xFF) << 23 | (cell & 0x7F00) << 8; }

static inline uint32_t sign_magnitude(uint32_t cell, unsigned drop, uint32_t mask) { return (cell & 0x8000) << 16 | (cell >> drop & mask); }

/* A lane's even and odd cell are neighbours: one word. */
static inline uint32_t pair(const uint16_t *cells, unsigned n)
{
    _Static_assert(__BYTE_ORDER__ == __ORDER_LITTLE_ENDIAN__, "the even cell must be the low half");
    uint32_t word;
    memcpy(&word, cells + 2 * n, sizeof word);
    return word;
}

/* The address, and the cursor moved on. */
static inline uint32_t advance(struct run *r, const uint32_t *insn)
{
    uint32_t cursor = r->cursor;
    r->cursor = (cursor + r->stride[insn[VB]]) % 1024;
    return (insn[IMM] + r->offset + cursor) % 1024;
}

static inline void load(struct run *r, const uint32_t *insn)
{
    /* Row address / 4 * 4 + lane / 8, column lane % 8 * 2: the lane's pair is at this place plus twice the lane. */
    uint32_t vd = insn[VD], address = advance(r, insn), place = address / 4 * 64, *d = at(r, vd);
    const uint32_t *config = at(r, LANE_CONFIG);
    row odd, cell, go;
    EACH_COLUMN(j) odd[j] = odd[8 + j] = odd[16 + j] = odd[24 + j] = has(address, 1) | has(config[j], ODD_COLUMN);
    EACH_LANE(n) {
        uint32_t both = pair(r->dst + place, n);
        cell[n] = pick(odd[n], both >> 16, both & 0xFFFF);
        go[n] = takes(r->on[n], config[n]);
    }
    if (COUNTS) r->loads++;
#define LOAD_AS(value) EACH_LANE(n) d[n] = pick(go[n], value, d[n])
    switch (insn[MOD] == 0 ? r->srcb : insn[MOD]) {
    case 1:  LOAD_AS(fp16(cell[n], config[n])); break;
    case 2:  LOAD_AS(bf16(cell[n])); break;
    case 5:  LOAD_AS(sign_magnitude(cell[n], 5, 0x7F)); break;
    case 7:  LOAD_AS(cell[n] << 16); break;
    case 8:  LOAD_AS(sign_magnitude(cell[n], 0, 0x7FFF)); break;
    case 11: LOAD_AS(0); break;
    case 13: LOAD_AS(negated(has(cell[n], 15), cell[n] >> 5 & 0x3FF)); break;
    case 14: LOAD_AS((d[n] & 0xFFFF0000) | cell[n]); break;
    case 15: LOAD_AS(cell[n] << 16 | (d[n] & 0x0000FFFF)); break;
    default: LOAD_AS(cell[n]); break;      /* 6 and 9 */
    }
    if (vd < 4) {
        uint32_t *index = at(r, vd + 4);
        EACH_LANE(n) index[n] = pick(go[n] & captures(config[n]), place + 2 * n - odd[n], index[n]);    /* a mask is minus 1 */
        if (COUNTS) r->captures++;
    }
}

/* STORE */

static inline void put_pair(uint16_t *cells, unsigned n, uint32_t word) { memcpy(cells + 2 * n, &word, sizeof word); }

static inline uint32_t twice(uint32_t cell) { return cell | cell << 16; }

static inline uint32_t bf16_back(uint32_t word) { return (word >> 16 & 0x8000) | (word >> 8 & 0x7F00) | (word >> 23 & 0xFF); }

/* The cell goes to both halves of the lane's pair, and a mask of 16 bits lets the right one through. */
static inline void store(struct run *r, const uint32_t *insn)
{
    uint32_t address = advance(r, insn);
    uint16_t *cells = r->dst + address / 4 * 64;
    const uint32_t *word = r->reg[insn[VD]], *config = at(r, LANE_CONFIG), *on = r->on;
    row half;
    EACH_COLUMN(j) {
        uint32_t side = 0xFFFF ^ (has(address, 1) | has(config[j], ODD_COLUMN));
        half[j] = on[j] & side;
        half[8 + j] = on[8 + j] & side;
        half[16 + j] = on[16 + j] & side;
        half[24 + j] = on[24 + j] & side;
    }
#define STORE_AS(value) EACH_LANE(n) put_pair(cells, n, pick(half[n], value, pair(cells, n)))
    switch (insn[MOD]) {
    case 2:  STORE_AS(twice(bf16_back(word[n]))); break;
    case 7:  STORE_AS(twice(word[n] >> 16)); break;
    default: STORE_AS(twice(word[n] & 0xFFFF)); break;     /* 6 and 9 */
    }
}

/* LUT. Product and sum are rounded each: to be compiled without contraction. */

/* The float of the byte at the top of a word. Byte 00 is 1.0, a set bit of its exponent clears one of the float's, and FF is 0. */
static inline float coefficient(uint32_t word)
{
    uint32_t bits = (shifted(word, 5) & 0x83F80000) ^ 0x3F800000;
    return (union bits){bits & ~full(bits == 0xBC780000)}.number;
}

static inline void lut(struct run *r, const uint32_t *insn)
{
    uint32_t vd = insn[VD], indirect = insn[MOD] & 8, retain = has(insn[MOD], 2) & 0x80000000, open = full(vd < 12);
    if (vd >= 8 && !indirect) return;
    const uint32_t *r0 = at(r, 0), *r1 = at(r, 1), *r2 = at(r, 2), *r3 = at(r, 3), *r7 = at(r, 7), *config = at(r, LANE_CONFIG);
    row serves, input, result;
    EACH_LANE(n) {
        uint32_t b = r3[n] & 0x7FFFFFFF;
        serves[n] = pick(less(b, 0x3F800000), r0[n], pick(less(b, 0x40000000), r1[n], r2[n]));
        input[n] = b & ~less(b, 0x00800000);
    }
    EACH_LANE(n) {
        float product = coefficient(serves[n] << 16) * (union bits){input[n]}.number;
        result[n] = (union bits){.number = product + coefficient(serves[n] << 24)}.word;
    }
    EACH_LANE(n) {
        uint32_t magnitude = result[n] & 0x7FFFFFFF, number = result[n] & ~(less(magnitude, 0x00800000) & 0x7FFFFFFF);
        result[n] = pick(retain, r3[n], pick(less(0x7F800000, magnitude), 0x7FC00000, number));
    }
    if (!indirect) {
        uint32_t *d = at(r, vd);
        note(r);
        EACH_LANE(n) d[n] = pick(r->on[n], result[n], d[n]);
        return;
    }
    /* The register is the lane's own; a lane with nothing to store stores register 0's word again. */
    row go, place;
    EACH_LANE(n) {
        go[n] = r->on[n] & (open | has(config[n], NO_BACKDOOR)) & ~has(r7[n], 3);
        place[n] = (r7[n] % 8 * LANES & go[n]) + n;
        result[n] = pick(go[n], result[n], r0[n]);
    }
    EACH_LANE(n) r->image[place[n]] = result[n];
    count(r, 1, go);
}

/* SWAP */

/* By mod, in which lanes vd wants the minimum. */
#define WANTS(a, b, c, d) BY_ROWS(0u - a, 0u - b, 0u - c, 0u - d)
static const row minimum[16] = {
    [1] = WANTS(1, 1, 1, 1), [2] = WANTS(1, 1, 0, 0), [3] = WANTS(1, 0, 1, 0), [4] = WANTS(1, 0, 0, 1),
    [5] = WANTS(1, 0, 0, 0), [6] = WANTS(0, 1, 0, 0), [7] = WANTS(0, 0, 1, 0), [8] = WANTS(0, 0, 0, 1),
};

/* Signed numbers in the order of ranks. */
static inline uint32_t rank(uint32_t word) { return word ^ sign(word) >> 1; }

/* The stores that a swap makes in a lane, and how many more with bit 2: both index registers then, but no longer those of vc and vd that are 4
 * to 7. */
static inline unsigned swap_stores(const uint32_t *insn) { return (insn[VC] < 8) + (insn[VD] < 8); }
static inline unsigned index_stores(const uint32_t *insn) { return (insn[VC] / 4 != 1) + (insn[VD] / 4 != 1); }

/* Called with constants: `always` for mod 0, `open` where vd is below 12. A tie is equal words, as no two words have one rank; its mask is
 * minus 1. A column's four lanes are done together, so that its counts are sums. */
INLINE void swap_as(struct run *r, const uint32_t *insn, bool always, bool open)
{
    uint32_t vc = insn[VC], vd = insn[VD], high_c = full(vc >= 4), high_d = full(vd >= 4);
    const uint32_t *c = r->reg[vc], *d = r->reg[vd], *wants = minimum[insn[MOD]], *config = at(r, LANE_CONFIG);
    uint32_t *to_c = vc < 8 ? at(r, vc) : r->idle[0], *to_d = vd < 8 ? at(r, vd) : r->idle[1];
    uint32_t *swapped = r->stores[swap_stores(insn)], *indexed = r->stores[index_stores(insn)];
    row index;
#define SWAP_LANE(n)                                                                                                \
    do {                                                                                                            \
        uint32_t old_c = c[n], old_d = d[n], go = r->on[n];                                                         \
        if (!open) go &= has(config[n], NO_BACKDOOR);                                                               \
        if (!always) ties += go & full(old_c == old_d);                                                             \
        if (!always) go &= ~(less(rank(old_c), rank(old_d)) ^ wants[n] ^ has(config[n], EXCHANGE));                 \
        uint32_t by_index = go & has(config[n], INDEX), change = (old_c ^ old_d) & go;                              \
        swaps += go, index_swaps += by_index;                                                                       \
        index[n] = by_index;                                                                                        \
        to_c[n] = old_c ^ (change & ~(by_index & high_c));                                                          \
        to_d[n] = old_d ^ (change & ~(by_index & high_d));                                                          \
    } while (0)
    EACH_COLUMN(j) {
        uint32_t ties = 0, swaps = 0, index_swaps = 0;
        SWAP_LANE(j);
        SWAP_LANE(8 + j);
        SWAP_LANE(16 + j);
        SWAP_LANE(24 + j);
        if (!COUNTS) continue;
        if (!always) r->ties[j] -= ties;
        swapped[j] -= swaps;
        indexed[j] -= index_swaps;
    }
    uint32_t *p = at(r, 4 + vc % 4), *q = at(r, 4 + vd % 4);
    if (p == q) return;
    EACH_LANE(n) {
        uint32_t change = (p[n] ^ q[n]) & index[n];
        p[n] ^= change;
        q[n] ^= change;
    }
}

/* Of a register with itself nothing moves, and there is only something to count: with mod other than 0 every lane that acts has a tie, and swaps
 * unless vd wants the minimum. */
INLINE void swap_with_itself(struct run *r, const uint32_t *insn)
{
    const uint32_t *config = at(r, LANE_CONFIG), *wants = minimum[insn[MOD]], always = full(insn[MOD] == 0), open = full(insn[VD] < 12);
    row ties, swaps, index;
    EACH_LANE(n) {
        uint32_t acts = r->on[n] & (open | has(config[n], NO_BACKDOOR));
        ties[n] = acts & ~always;
        swaps[n] = acts & (always | ~(wants[n] ^ has(config[n], EXCHANGE)));
        index[n] = swaps[n] & has(config[n], INDEX);
    }
    EACH_COLUMN(j) r->ties[j] -= of_column(ties, j);
    count(r, swap_stores(insn), swaps);
    count(r, index_stores(insn), index);
}

INLINE void swap(struct run *r, const uint32_t *insn)
{
    if (insn[VC] == insn[VD] && !COUNTS) return;
    if (insn[VC] == insn[VD]) swap_with_itself(r, insn);
    else if (insn[MOD] != 0 && insn[VD] < 12) swap_as(r, insn, false, true);
    else if (insn[MOD] != 0) swap_as(r, insn, false, false);
    else if (insn[VD] < 12) swap_as(r, insn, true, true);
    else swap_as(r, insn, true, false);
}

/* CONFIG. Every way of storing is (old & kept) ^ put, with two words for a column. */

static inline void config(struct run *r, const uint32_t *insn)
{
    static const uint8_t slots[16] = {TEMPLATE, TEMPLATE + 1, TEMPLATE + 2, TEMPLATE + 3, SEQUENCE, SEQUENCE + 1, SEQUENCE + 2, SEQUENCE + 3,
                                      MISC, 0, 0, R11, R11 + 1, R11 + 2, R11 + 3, LANE_CONFIG};
    static const uint32_t column_bit[COLUMNS] = {1 << 0, 1 << 2, 1 << 4, 1 << 6, 1 << 8, 1 << 10, 1 << 12, 1 << 14};
    if (COUNTS && r->loads != 0 && insn[VD] == 15) count_loads(r);
    const uint32_t defaults[4] = {0xBF800000, r->edition == 1 ? 0x37800000 : 0x3B000000, 0xBF2CC4C7, 0xBEB08FF9};
    uint32_t vd = insn[VD], mod = insn[MOD], imm = insn[IMM], value = imm, width = 0xFFFFFFFF, way = 0, high = 0, *slot = at(r, slots[vd]);
    bool imm_is_value = mod & 1 && vd >= 4;
    if (vd == 9 || vd == 10) return;
    if (vd >= 11 && vd < 15) value = defaults[vd - 11];
    if (vd == 8) width = 0xFFF, way = mod & 6;
    if (vd == 15) width = 0x3FFFF, way = mod & 6, high = imm_is_value ? 0x30000 : 0;

    const uint32_t stores = vd >= 11 && vd < 15 ? 4 : 0;        /* of a column that is not passed over */
    const uint32_t from_imm = full(imm_is_value), all = ~has(mod, 3), ors = full(way == 2), ands = full(way == 4), xors = full(way == 6);
    EACH_COLUMN(j) {
        uint32_t go = r->on[j] & (all | full((imm & column_bit[j]) != 0)), v = pick(from_imm, value, r->image[j]) & width;
        uint32_t kept = (~v & ors) | (v & ands) | xors | high | ~go, put = v & ~ands & go;
        slot[j] = (slot[j] & kept) ^ put;
        slot[8 + j] = (slot[8 + j] & kept) ^ put;
        slot[16 + j] = (slot[16 + j] & kept) ^ put;
        slot[24 + j] = (slot[24 + j] & kept) ^ put;
        if (COUNTS) r->stores[1][j] += go & stores;
    }
}

/* The others store a word made of words of the rows b (vb under mod 1, else vd), c and d, where vd is below 8. */

#define WRITE(value) EACH_LANE(n) d[n] = pick(r->on[n], value, d[n])

/* If `sets`, the flag gets `truth`, which may speak of the value as `word`; it then becomes its contrary if `turns`. */
#define WRITE_AND_FLAG(value, truth)                                          \
    do {                                                                      \
        if (sets) EACH_LANE(n) {                                              \
            uint32_t word = value, on = r->on[n];                             \
            d[n] = pick(on, word, d[n]);                                      \
            put_flag(r, n, ((truth) ^ turns) & on);                           \
        } else {                                                              \
            WRITE(value);                                                     \
            if (turns) EACH_LANE(n) put_flag(r, n, ~r->flag[n] & r->on[n]);   \
        }                                                                     \
    } while (0)

static inline void loadi(struct run *r, const uint32_t *insn)
{
    uint32_t *d = at(r, insn[VD]), imm = insn[IMM];
    note(r);
    if (insn[MOD] == 8) WRITE(imm << 16 | (d[n] & 0x0000FFFF));
    else WRITE((d[n] & 0xFFFF0000) | imm);
}

static inline void iadd(struct run *r, const uint32_t *insn)
{
    uint32_t mod = insn[MOD], *d = at(r, insn[VD]), imm = (insn[IMM] ^ 0x800) - 0x800, sets = ~mod & 4, turns = has(mod, 3);
    const uint32_t *c = r->reg[insn[VC]];
    note_before_flags(r, sets | turns);
    if (mod & 1) WRITE_AND_FLAG(c[n] + imm, sign(word));
    else if (mod & 2) WRITE_AND_FLAG(c[n] - d[n], sign(word));
    else WRITE_AND_FLAG(c[n] + d[n], sign(word));
}

/* From the exponent of the word as a float: with a half more, so that 0 counts as 2^-1, and without the bit after the top one, so that no
 * rounding carries. A word with bit 31 is negative there. */
static inline uint32_t leading_zeros(uint32_t word)
{
    return (158 - ((union bits){.number = (float)(int32_t)(word & ~(word >> 1)) + 0.5f}.word >> 23)) & ~sign(word);
}

static inline void lz(struct run *r, const uint32_t *insn)
{
    uint32_t mod = insn[MOD], *d = at(r, insn[VD]), within = mod & 4 ? 0x7FFFFFFF : 0xFFFFFFFF, sets = mod & 2, turns = has(mod, 3);
    const uint32_t *c = r->reg[insn[VC]];
    note_before_flags(r, sets | turns);
    WRITE_AND_FLAG(leading_zeros(c[n] & within), full(word != 32));
}

static inline void exexp(struct run *r, const uint32_t *insn)
{
    uint32_t mod = insn[MOD], *d = at(r, insn[VD]), bias = mod & 1 ? 0 : 127, sets = mod & 2, turns = has(mod, 3);
    const uint32_t *c = r->reg[insn[VC]];
    note_before_flags(r, sets | turns);
    WRITE_AND_FLAG((c[n] >> 23 & 0xFF) - bias, sign(word));
}

static inline uint32_t abs_float(uint32_t word) { return word & (0x7FFFFFFF | less(0x7F800000, word & 0x7FFFFFFF)); }

#define WORD_OPERATION(name, value)                                                     \
    static inline void name(struct run *r, const uint32_t *insn)                        \
    {                                                                                   \
        uint32_t *d = at(r, insn[VD]), mod = insn[MOD];                                 \
        const uint32_t *c = r->reg[insn[VC]], *b = mod ? r->reg[insn[VB]] : d;          \
        (void)b;                                                                        \
        note(r);                                                                        \
        WRITE(value);                                                                   \
    }

WORD_OPERATION(absolute, mod ? abs_float(c[n]) : negated(sign(c[n]), c[n]))
WORD_OPERATION(bit_and, b[n] & c[n])
WORD_OPERATION(bit_or, b[n] | c[n])
WORD_OPERATION(bit_xor, d[n] ^ c[n])
WORD_OPERATION(bit_not, ~c[n])
WORD_OPERATION(exman, (c[n] & 0x7FFFFF) | (mod ? 0 : 0x800000))

/* One jump decides by op and by vd: with vd from 8 up, few operations do anything. No op is 0, so STORE and ABOVE may be one number. */
enum { ABOVE = 16 };

static inline void step(struct run *r, const uint32_t *insn)
{
    switch (insn[OP] + 2 * (insn[VD] & 8)) {
    case LOAD:   load(r, insn); break;
    case LOADI:  loadi(r, insn); break;
    case LUT:    case ABOVE + LUT:    lut(r, insn); break;
    case SWAP:   case ABOVE + SWAP:   swap(r, insn); break;
    case CONFIG: case ABOVE + CONFIG: config(r, insn); break;
    case IADD:   iadd(r, insn); break;
    case ABS:    absolute(r, insn); break;
    case AND:    bit_and(r, insn); break;
    case OR:     bit_or(r, insn); break;
    case XOR:    bit_xor(r, insn); break;
    case NOT:    bit_not(r, insn); break;
    case LZ:     lz(r, insn); break;
    case EXEXP:  exexp(r, insn); break;
    case EXMAN:  exman(r, insn); break;
    case STORE:  case ABOVE + STORE:  store(r, insn); break;
    case ABOVE + LOAD: advance(r, insn); break;
    default:     break;
    }
}

/* What is refused */

/* For each op, with even mods and with odd ones: the bits that its words may not have, and a bit for each mod allowed. */
#define FIELDS(imm, vb, vc, vd, mods) { {~31u, ~(imm##u), ~(vb##u), ~(vc##u), ~(vd##u), ~15u}, mods }
#define BOTH(imm, vb, vc, vd, mods) { FIELDS(imm, vb, vc, vd, mods), FIELDS(imm, vb, vc, vd, mods) }
static const struct fields {
    _Alignas(32) uint32_t over[WORDS];
    uint32_t mods;
} fields[32][2] = {
    [LOAD] = BOTH(1023, 3, 0, 15, 0xEBE7), [LOADI] = BOTH(65535, 0, 0, 15, 0x0500), [LUT] = BOTH(0, 0, 0, 15, 0x1111),
    [SWAP] = BOTH(0, 0, 15, 15, 0xFFFF), [CONFIG] = BOTH(65535, 0, 0, 15, 0xFFFF), [IADD] = BOTH(4095, 0, 15, 15, 0xFFFF),
    [ABS] = BOTH(0, 0, 15, 15, 0x0003), [AND] = {FIELDS(0, 0, 15, 15, 1), FIELDS(0, 15, 15, 15, 2)},
    [OR] = {FIELDS(0, 0, 15, 15, 1), FIELDS(0, 15, 15, 15, 2)}, [XOR] = BOTH(0, 0, 15, 15, 0x0001), [NOT] = BOTH(0, 0, 15, 15, 0x0001),
    [LZ] = BOTH(0, 0, 15, 15, 0x5555), [EXEXP] = BOTH(0, 0, 15, 15, 0x0F0F), [EXMAN] = BOTH(0, 0, 15, 15, 0x0003),
    [NOP] = BOTH(0, 0, 0, 0, 0x0001), [STORE] = BOTH(1023, 3, 0, 15, 0x02C4),
};

static inline uint32_t insn_fault(const uint32_t *insn)
{
    const struct fields *f = &fields[insn[OP] % 32][insn[MOD] % 2];
    uint32_t over = 0;
    for (unsigned k = 0; k < WORDS; k++) over |= insn[k] & f->over[k];
    if (over == 0 && f->mods >> insn[MOD] & 1) return 0;
    if (insn[OP] < LOAD || insn[OP] > STORE) return 7;
    return insn[OP] == LOAD && over == 0 ? 9 : 8;       /* LOAD refuses no mod below 16 by 8 */
}

/* Of the list's words the first `scanned` are looked at. */
static inline uint32_t fault(const uint32_t *settings, const uint32_t *image, size_t image_len, size_t dst_len, const uint32_t *list,
                             size_t list_len, size_t scanned, uint32_t *place)
{
    if (image_len != IMAGE_WORDS) return 1;
    if (dst_len != DST_CELLS) return 2;
    for (unsigned i = 0; i < 8; i++)
        if (i < 2 ? settings[i] < 1 || settings[i] > 2 : settings[i] > 1023) return 3;
    if (list_len % WORDS != 0) return 4;
    if (list_len / WORDS > MAX_INSNS) return 5;
    const uint32_t *config = image + LANES * LANE_CONFIG, *flag = image + LANES * LANE_FLAG, *use = image + LANES * USE_FLAG,
                   *misc = image + LANES * MISC;
    uint32_t over = 0;
    EACH_LANE(n) over |= config[n] >> 18 | (flag[n] | use[n]) >> 1 | misc[n] >> 12;
    if (over != 0) return 6;
    for (size_t i = 0; i < scanned; i += WORDS) {
        uint32_t answer = insn_fault(list + i);
        if (answer != 0) return *place = (uint32_t)(i / WORDS), answer;
    }
    return 0;
}

/* The run */

static const row register8 = ALL(0x3F56594B), register9 = ALL(0), register10 = ALL(0x3F800000);
static const row register15 = {0,  2,  4,  6,  8,  10, 12, 14, 16, 18, 20, 22, 24, 26, 28, 30,
                               32, 34, 36, 38, 40, 42, 44, 46, 48, 50, 52, 54, 56, 58, 60, 62};

static inline void begin(struct run *r, const uint32_t *settings, uint32_t *image, uint16_t *dst)
{
    r->image = image, r->dst = dst, r->stride = settings + 4;
    r->edition = settings[0], r->srcb = settings[1], r->offset = settings[2], r->cursor = settings[3];
    for (unsigned k = 0; k < 8; k++) r->reg[k] = at(r, k);
    r->reg[8] = register8, r->reg[9] = register9, r->reg[10] = register10, r->reg[15] = register15;
    for (unsigned k = 11; k < 15; k++) r->reg[k] = at(r, R11 + k - 11);
    const uint32_t *flag = at(r, LANE_FLAG), *use = at(r, USE_FLAG);
    EACH_LANE(n) r->free[n] = use[n] - 1, put_flag(r, n, 0u - flag[n]);
    if (!COUNTS) return;
    memcpy(r->ties, register9, sizeof r->ties);     /* zeros, copied: gcc sets a row by rep stos, a tenth of the time of a list of one */
    memcpy(r->stores, register9, sizeof r->stores);
    r->owed = r->loads = r->captures = 0, r->by_flag = true;
}

static inline void end(struct run *r)
{
    uint32_t *flag = at(r, LANE_FLAG);
    EACH_LANE(n) flag[n] = r->flag[n] & 1;
}

#ifndef STEPS_ONLY

uint32_t plain_run(const uint32_t settings[8], uint32_t *image, size_t image_len, uint16_t *dst, size_t dst_len,
                   const uint32_t *list, size_t list_len, uint32_t outcome[20])
{
    uint32_t place = 0, answer = fault(settings, image, image_len, dst_len, list, list_len, list_len, &place), steps = 0, cursor = settings[3];
    EACH_COLUMN(j) outcome[4 + j] = outcome[12 + j] = 0;
    if (answer == 0) {
        struct run r;
        begin(&r, settings, image, dst);
        for (size_t i = 0; i < list_len; i += WORDS) step(&r, list + i);
        end(&r);
        count_owed(&r);
        if (r.loads != 0) count_loads(&r);
        EACH_COLUMN(j) outcome[4 + j] = r.ties[j], outcome[12 + j] = r.stores[1][j] + 2 * r.stores[2][j];
        steps = (uint32_t)(list_len / WORDS), cursor = r.cursor;
    }
    outcome[0] = answer, outcome[1] = steps, outcome[2] = place, outcome[3] = cursor;
    return answer;
}

void plain_unpack(const uint16_t *restrict cells, uint32_t *restrict words, size_t count)
{
    for (size_t n = 0; n < count; n++) words[n] = bf16(cells[n]);
}

#endif
