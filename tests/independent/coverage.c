/* What a set of cases meets, so that a set that misses something can be seen to. */
#include "independent.h"

#include <inttypes.h>
#include <math.h>
#include <string.h>

enum { WORDS = 17 };                        /* the last column: 16 and more */
enum { LINES = 14 };                        /* lines from 1; the last column: 13 and more */

struct tally {
    unsigned long answer[7][13];            /* runs, lanes, writing, reading, and of walks begin, forward, back */
    unsigned long cases[7];
    unsigned long mod[OPS][WORDS];          /* instructions of runs and lanes that were done, by op */
    unsigned long vd[OPS][WORDS];
    unsigned long edition[OPS][WORDS];
    unsigned long config[OPS][18];          /* with the bit set in an enabled lane */
    unsigned long refused[OPS + 1][WORDS];  /* by 7, 8 or 9, by op (OPS for an unknown one) and mod */
    unsigned long field[OPS][WORDS];        /* by 8, by op and field */
    unsigned long pair[10][WORDS];          /* lanes filled from the cell that was stored just before, by STORE's mod and LOAD's */
    unsigned long equal[3][WORDS];          /* lanes of a run with two equal words under SWAP, by what the lane does and mod */
    unsigned long ties[2][COLUMNS];         /* what runs count, by column: together, and the most that one counts */
    unsigned long stored[2][COLUMNS];       /* and of stores to registers */
    unsigned long made[OPS][5];             /* lanes of a run, by op and how many stores to registers they make */
    unsigned long untold[2][12];            /* refused runs that count none and else would, ties and stores to registers, by answer */
    unsigned long undone[OPS][WORDS];       /* steps back, by op and mod of the instruction gone back over */
    unsigned long read[2][13];              /* listings that are read, by format and answer */
    unsigned long line[2][LINES];           /* refused by 10, by format and line */
};

static struct tally t;

/* Lanes in which something rare was met. */
enum { SWAP_SAME, SWAP_ZEROS, SWAP_NAN, LUT_PRODUCT, LUT_SUM, LUT_NAN, LUT_NO_NUMBER, ABS_NAN, ABS_LEAST, RARE };
static unsigned long rare[RARE];
static const char *const rare_names[RARE] = {
    "SWAP, mod not 0, of two equal words", "SWAP, mod not 0, of the two zeros", "SWAP, mod not 0, with a NaN", "LUT whose product is half way between two singles",
    "LUT whose sum is half way between two singles", "LUT of a NaN", "LUT whose sum is no number", "ABS, mod 1, of a NaN", "ABS, mod 0, of 80000000",
};

/* What STORE meets, in lanes and then as an instruction. */
enum { EVEN, ODD_ADDRESS, ODD_ROW0, ODD_BOTH, OWN_BIT5, BIT1, NOT_ENABLED, LAST_ROWS, WRAPS, REFUSED_LATER, STORES };
static unsigned long stores[STORES];
static const char *const store_names[STORES] = {
    "lanes, to the even column", "lanes, to the odd column by the address", "lanes, to the odd column by bit 5 of row 0's lane", "lanes, to the odd column by both",
    "lanes whose own bit 5 would choose the other column", "lanes with bit 1 set", "lanes not enabled", "instructions at an address past 1,020",
    "instructions that take the cursor past 1,023", "instructions of a run, before the one that it is refused for",
};

/* What SWAP's ties meet, in lanes and then as a run. */
enum { SAME_REGISTER, NEVER_STORED, LAST_REGISTERS, BIT2, BIT8, EQUAL_AFTER, UNEQUAL_AFTER, RUNS_WITH, RUNS_UNEVEN, RUNS_ONE, TIES };
static unsigned long ties[TIES];
static const char *const tie_names[TIES] = {
    "lanes, vc and vd the same register", "lanes, one of the two a register that is never stored", "lanes, vd 12 to 15 and bit 4 set", "lanes with bit 2 set",
    "lanes with bit 8 set", "lanes with two words that are equal after SWAP and not before, no ties", "lanes with two words that are equal before SWAP and not after",
    "runs with a tie", "runs with other ties in one column than in another", "runs with ties in one column alone",
};

/* What the count of stores to registers meets, in lanes and then as a run. */
enum { CAPTURED, ONE_BIT, NO_INDEX, BLOCKED, SELF, SELF_STAYS, ONE_OF_TWO, INDEX_2, INDEX_2_SELF, INDEX_3, INDEX_3_SELF, INDEX_4, INDEX_4_SELF,
       CONSTANT, FROM_0, CONFIG_OFF, MASKED, ROW0_OFF, TEMPLATE, SEQUENCE, MISC, LANE_CONFIG, NO_PLACE, NAMED, NAMED_HIGH, VD_HIGH, FLAG_TOO, FEWER_CHANGE,
       STORING, STORING_UNEVEN, STORING_ONE, STORING_MOST, TRAFFIC };
static unsigned long traffic[TRAFFIC];
static const char *const traffic_names[TRAFFIC] = {
    "lanes, LOAD with its place captured: two", "lanes, LOAD, vd 0 to 3, one of bits 2 and 3 set: one", "lanes, LOAD, vd 4 to 7, bits 2 and 3 set: one",
    "lanes, LOAD, vd 0 to 3, bits 2 and 3 set, blocked by bit 1: none",
    "lanes, SWAP of a register with itself, bit 2 clear: two", "lanes, SWAP that leaves a register with itself, 0 to 7: none", "lanes, SWAP, bit 2 clear, one of the two below 8: one",
    "lanes, SWAP, bit 2 set, two index registers alone: two", "lanes, SWAP, bit 2 set, an index register with itself alone: two",
    "lanes, SWAP, bit 2 set, two index registers and one of vc and vd: three", "lanes, SWAP, bit 2 set, an index register with itself and one of vc and vd: three",
    "lanes, SWAP, bit 2 set, two index registers, vc and vd: four", "lanes, SWAP, bit 2 set, an index register with itself and a register with itself: four",
    "lanes, CONFIG of 11 to 14, a constant: one", "lanes, CONFIG of 11 to 14, register 0's word: one", "lanes not enabled, CONFIG of 11 to 14: one",
    "lanes that CONFIG of 11 to 14 passes over by imm: none", "lanes that CONFIG of 11 to 14 passes over by row 0's flags: none",
    "lanes, CONFIG of a template: none", "lanes, CONFIG of a sequence: none", "lanes, CONFIG of Misc: none", "lanes, CONFIG of LaneConfig: none", "lanes, CONFIG of vd 9 or 10: none",
    "lanes, LUT to the register that 7 names: one", "lanes, LUT, 7 names a register from 8 on: none", "lanes, LUT to the register that 7 names, vd from 8 on: one",
    "lanes with one store and another flag", "lanes with more stores than words that change",
    "runs with a store", "runs with other stores in one column than in another", "runs with stores in one column alone", "runs with 16 stores an instruction in every column",
};

/* Why a step is refused by 12. */
enum { FROM_END, PAST_END, ONE_SHORT, MORE_SHORT, FROM_START, BACK_PAST_END, BACK_ONE_SHORT, BACK_MORE_SHORT, TWELVES };
static unsigned long twelves[TWELVES];
static const char *const twelve_names[TWELVES] = {
    "forward from the end", "forward, the walk past the end", "forward, the store short by one word", "forward, the store short by more",
    "back from the start", "back, the walk past the end", "back, the store short by one word", "back, the store short by more",
};

/* What walks meet: in cells kept, in steps, and as walks. */
enum { KEPT_OFF, KEPT_ROW0, KEPT_ADDRESS, USED_AGAIN, BRINGS_CELL, NEVER_KEPT, NOT_AS_KEPT, ILL_FORMED, BAD_CURSOR, BAD_ADDRESS, BAD_CELL, OTHER_ROWS,
       OTHER_COLUMN, OVER_REFUSED, OVER_BAD_STORE, QUIET_STEPS, ENDS_AT_START, ENDS_AT_END, TURNS, STEPS_REFUSED_BEGIN, MOST_ENTRIES, WALKS };
static unsigned long walks[WALKS];
static const char *const walk_names[WALKS] = {
    "cells kept of lanes not enabled", "cells kept in the odd column by bit 5 of row 0's lane alone", "cells kept in the odd column by the address",
    "steps forward whose entry takes the room of one that was freed", "steps back over a STORE that change a cell", "steps back over an entry that was never kept",
    "steps back over an entry that the host changed", "steps back that bring an image that is not well formed", "steps back that bring a cursor above 1,023",
    "steps back over a STORE with an address above 1,023", "steps back over a STORE with a cell above 65,535",
    "steps back over a STORE to other rows, as the host changed its entry", "steps back over a STORE to another column, as the host changed its entry",
    "steps back over an instruction that is refused by 7, 8 or 9", "steps back over a STORE that is refused by 8",
    "steps of walks in which the host changes nothing", "walks with steps that end at the start", "walks with steps that end at the list's end",
    "walks that turn four times or more", "walks with steps, though refused when they begin", "entries in a store, the most",
};

/* The lengths of lists, where M-105 counts. */
enum { RUN_LONG, RUN_MOST, RUN_OVER, BEGIN_LONG, BEGIN_MOST, BEGIN_OVER, WRITE_LONG, WRITE_MOST, WRITE_OVER, WRITE_FITS, WRITE_ONE_SHORT, WRITE_SHORT, LENGTHS };
static unsigned long lengths[LENGTHS];
static const char *const length_names[LENGTHS] = {
    "runs done of 1,025 to 16,383 instructions", "runs done of 16,384", "runs refused by 5 of 16,385",
    "walks begun of 1,025 to 16,383 instructions", "walks begun of 16,384", "walks refused by 5, when they begin, of 16,385",
    "listings written of 1,025 to 16,383 instructions", "listings written of 16,384", "writings refused by 5 of 16,385",
    "listings written into a room just long enough", "writings refused by 11, the room short by one byte", "writings refused by 11, the room short by more",
};

/* What readings meet: in any format, in an old listing, in format 2, and as a first line. */
enum { LONG_TEXT, TEXT_MOST, TEXT_ONE_OVER, TEXT_OVER, ROOM_FITS, ROOM_ONE_SHORT, ROOM_SHORT, MANY_ONE_SHORT, GOES_ON, ENDS_EARLY, LATE_LINE, LATE_PLACE,
       OLD_STORE, OLD_MOST, OLD_ONE_OVER, OLD_OVER, OLD_FIVE, NEW_LONG, NEW_MOST, NEW_ONE_OVER, NEW_OVER, NEW_FOUR,
       FORMAT_1, FORMAT_3, FORMAT_CR, FORMAT_NO_LF, FORMAT_SPACE, FORMAT_TWICE, FORMAT_ALONE, READINGS };
static unsigned long readings[READINGS];
static const char *const reading_names[READINGS] = {
    "texts over 65,536 bytes that are read", "texts of 1,048,576 bytes", "texts of 1,048,577 bytes", "texts of more bytes",
    "rooms just long enough", "rooms short by one word", "rooms short by more", "rooms short by one word, for 16,384 instructions",
    "refused by 10 as the text goes on after the last instruction", "refused by 10 as the text ends before an instruction's line", "refused by 10 for a line past 9,999", "refused by 8 or 9 at a place past 9,999",
    "old listings with a STORE that are read", "old listings of 1,024 instructions that are read", "old listings refused by 5 with a count of 1,025",
    "old listings refused by 5 with a greater count", "old listings refused by 10 for five digits of count",
    "format 2 of 1,025 to 16,383 instructions that is read", "format 2 of 16,384 instructions that is read", "format 2 refused by 5 with a count of 16,385",
    "format 2 refused by 5 with a greater count", "format 2 refused by 10 for four digits of count",
    "first line format=1", "first line format=3", "first line format=2 and CR", "first line that goes on right after format=2, or ends there without LF",
    "first line format=2 with a space", "format=2 twice", "format=2 and LF, and nothing else",
};

/* A lane's words, out of those of so many lanes, which stand slot by slot. */
static void take_lane(uint32_t w[SLOTS], const uint32_t *words, unsigned lanes, unsigned lane)
{
    for (unsigned s = 0; s < SLOTS; s++) w[s] = words[lanes * s + lane];
}

static bool enabled(const uint32_t *w) { return w[SLOT_USE] == 0 || w[SLOT_FLAG] == 1; }

static bool half_way(double exact)
{
    float near = (float)exact;
    if (!isfinite(near) || (double)near == exact) return false;
    return 2 * fabs(exact - (double)near) == fabs((double)nextafterf(near, exact > (double)near ? INFINITY : -INFINITY) - (double)near);
}

static float coefficient(uint32_t byte)
{
    return byte == 255 ? 0 : (float)ldexp((byte >> 7 != 0 ? -1.0 : 1.0) * (1 + (byte & 15) / 16.0), -(int)(byte >> 4 & 7));
}

static void count_lut(const uint32_t *w)
{
    uint32_t magnitude = w[3] & 0x7FFFFFFF;
    float b = ind_float_of(magnitude < 0x800000 ? 0 : magnitude);
    uint32_t coeffs = b < 1.0f ? w[0] : b < 2.0f ? w[1] : w[2];
    float a = coefficient(coeffs >> 8 & 255), c = coefficient(coeffs & 255), product = a * b;
    rare[LUT_PRODUCT] += half_way((double)a * (double)b);
    rare[LUT_SUM] += half_way((double)product + (double)c);
    rare[LUT_NAN] += ind_is_nan(w[3]);
    rare[LUT_NO_NUMBER] += isnan(product + c) != 0;
}

/* A register's word in a lane's 24 words. */
static uint32_t held(const uint32_t *w, uint32_t reg, uint32_t lane)
{
    static const uint32_t constants[3] = { 0x3F56594B, 0, 0x3F800000 };
    return reg < 8 ? w[reg] : reg < 11 ? constants[reg - 8] : reg < 15 ? w[SLOT_R11 + reg - 11] : 2 * lane;
}

static void count_rare(const uint32_t *insn, const uint32_t *w, uint32_t lane)
{
    uint32_t c = held(w, insn[F_VC], lane), d = held(w, insn[F_VD], lane);
    if (!enabled(w)) return;
    if (insn[F_OP] == LUT) count_lut(w);
    if (insn[F_OP] == SWAP && insn[F_MOD] != 0) {
        rare[SWAP_SAME] += c == d;
        rare[SWAP_ZEROS] += (c ^ d) == 0x80000000 && (c & d) == 0 && (c | d) == 0x80000000;
        rare[SWAP_NAN] += ind_is_nan(c) || ind_is_nan(d);
    }
    if (insn[F_OP] == ABS) {
        rare[ABS_NAN] += insn[F_MOD] == 1 && ind_is_nan(c);
        rare[ABS_LEAST] += insn[F_MOD] == 0 && c == 0x80000000;
    }
}

static uint32_t address(const uint32_t settings[8], const uint32_t *insn)
{
    return (insn[F_IMM] + settings[S_OFFSET] + settings[S_CURSOR]) % 1024;
}

static void count_store(uint32_t addr, const uint32_t *w, uint32_t row0_config)
{
    bool by_address = addr >> 1 & 1, by_row0 = row0_config >> 5 & 1, own = w[SLOT_CONFIG] >> 5 & 1;
    if (!enabled(w)) {
        stores[NOT_ENABLED]++;
        return;
    }
    stores[by_address ? by_row0 ? ODD_BOTH : ODD_ADDRESS : by_row0 ? ODD_ROW0 : EVEN]++;
    stores[OWN_BIT5] += !by_address && own != by_row0;
    stores[BIT1] += w[SLOT_CONFIG] >> 1 & 1;
}

/* An instruction about to be done in so many lanes from one on; and LaneConfig of row 0's. */
static void count_done(const uint32_t settings[8], const uint32_t *insn, const uint32_t *words, uint32_t first, unsigned lanes, const uint32_t *row0_configs)
{
    uint32_t op = insn[F_OP], bits = 0;
    t.mod[op][insn[F_MOD]]++;
    t.vd[op][insn[F_VD]]++;
    t.edition[op][settings[S_EDITION]]++;
    for (unsigned lane = 0; lane < lanes; lane++) {
        uint32_t w[SLOTS];
        take_lane(w, words, lanes, lane);
        if (enabled(w)) bits |= w[SLOT_CONFIG];
        count_rare(insn, w, first + lane);
        if (op == STORE) count_store(address(settings, insn), w, row0_configs[lane % 8]);
    }
    if (op == STORE) {
        stores[LAST_ROWS] += address(settings, insn) > 1020;
        stores[WRAPS] += settings[S_CURSOR] + settings[S_STRIDE0 + insn[F_VB]] > 1023;
    }
    for (int b = 0; b < 18; b++) t.config[op][b] += bits >> b & 1;
}

/* Two instructions in a row whose addresses agree, the second about to be done. */
static void count_pair(const uint32_t *store, const uint32_t *load, const uint32_t *image)
{
    if (store[F_OP] != STORE || load[F_OP] != LOAD || load[F_VD] >= 8) return;
    for (unsigned lane = 0; lane < LANES; lane++) {
        uint32_t w[SLOTS];
        take_lane(w, image, LANES, lane);
        t.pair[store[F_MOD]][load[F_MOD]] += enabled(w) && (w[SLOT_CONFIG] >> 1 & 1) == 0;
    }
}

/* An instruction of a run, by the images before it and after it. */
static void count_equal(const uint32_t *insn, const uint32_t *before, const uint32_t *after)
{
    const uint32_t vc = insn[F_VC], vd = insn[F_VD], mod = insn[F_MOD];
    if (insn[F_OP] != SWAP) return;
    for (unsigned lane = 0; lane < LANES; lane++) {
        uint32_t w[SLOTS], later[SLOTS], config;
        take_lane(w, before, LANES, lane);
        take_lane(later, after, LANES, lane);
        config = w[SLOT_CONFIG];
        bool acts = vd < 12 || (config >> 4 & 1) == 1;
        bool equal = held(w, vc, lane) == held(w, vd, lane), equal_after = held(later, vc, lane) == held(later, vd, lane);
        if (equal) t.equal[!enabled(w) ? 2 : acts ? 0 : 1][mod]++;
        if (!enabled(w) || !acts || mod == 0) continue;
        ties[EQUAL_AFTER] += !equal && equal_after;
        if (!equal) continue;
        ties[SAME_REGISTER] += vc == vd;
        ties[NEVER_STORED] += vc != vd && (vc == 15 || vd == 15 || (vc >= 8 && vc < 11) || (vd >= 8 && vd < 11));
        ties[LAST_REGISTERS] += vd >= 12;
        ties[BIT2] += config >> 2 & 1;
        ties[BIT8] += config >> 8 & 1;
        ties[UNEQUAL_AFTER] += !equal_after;
    }
}

static int columns_with(const uint32_t *counts)
{
    int n = 0;
    for (int c = 0; c < COLUMNS; c++) n += counts[c] != 0;
    return n;
}

/* What a run counts, into the sums of all runs, and into three counts of such runs. */
static void count_counts(const uint32_t *counts, unsigned long sums[2][COLUMNS], unsigned long runs[3])
{
    bool uneven = false;
    for (int c = 0; c < COLUMNS; c++) {
        sums[0][c] += counts[c];
        if (counts[c] > sums[1][c]) sums[1][c] = counts[c];
        uneven = uneven || counts[c] != counts[0];
    }
    runs[0] += columns_with(counts) > 0;
    runs[1] += uneven;
    runs[2] += columns_with(counts) == 1;
}

static void count_stored_load(uint32_t vd, const uint32_t *w, uint32_t made)
{
    const uint32_t config = w[SLOT_CONFIG], bits = config >> 2 & 3;
    traffic[CAPTURED] += made == 2;
    traffic[ONE_BIT] += made == 1 && vd < 4 && bits != 0;
    traffic[NO_INDEX] += made == 1 && vd >= 4 && bits == 3;
    traffic[BLOCKED] += made == 0 && vd < 4 && bits == 3 && enabled(w) && (config >> 1 & 1) == 1;
}

/* With bit 2 set a swap makes two stores at least. */
static void count_stored_swap(uint32_t vc, uint32_t vd, const uint32_t *w, uint32_t made)
{
    const bool index = w[SLOT_CONFIG] >> 2 & 1;
    traffic[SELF] += !index && made == 2 && vc == vd;
    traffic[SELF_STAYS] += made == 0 && vc == vd && vd < 8 && enabled(w);
    traffic[ONE_OF_TWO] += made == 1;
    if (index && made > 0) traffic[INDEX_2 + 2 * (made - 2) + (vc % 4 == vd % 4)]++;
}

static void count_stored_config(const uint32_t *insn, uint32_t column, const uint32_t *w, const uint32_t *row0)
{
    static const uint8_t others[16] = { TEMPLATE, TEMPLATE, TEMPLATE, TEMPLATE, SEQUENCE, SEQUENCE, SEQUENCE, SEQUENCE, MISC, NO_PLACE, NO_PLACE, [15] = LANE_CONFIG };
    const uint32_t vd = insn[F_VD], mod = insn[F_MOD];
    const bool reg = vd >= 11 && vd < 15, masked = mod & 8 && (insn[F_IMM] >> 2 * column & 1) == 0, off = !enabled(row0);
    if (masked || off) {
        traffic[MASKED] += reg && masked;
        traffic[ROW0_OFF] += reg && off;
        return;
    }
    traffic[reg ? mod & 1 ? CONSTANT : FROM_0 : others[vd]]++;
    traffic[CONFIG_OFF] += reg && !enabled(w);
}

static void count_stored_lut(const uint32_t *insn, const uint32_t *w, uint32_t made)
{
    if ((insn[F_MOD] & 8) == 0) return;
    traffic[NAMED] += made == 1;
    traffic[NAMED_HIGH] += made == 0 && insn[F_VD] < 12 && enabled(w);
    traffic[VD_HIGH] += made == 1 && insn[F_VD] >= 8;
}

/* An instruction of a run, by the images before it and after it. */
static void count_traffic(const uint32_t settings[8], const uint32_t *insn, const uint32_t *before, const uint32_t *after)
{
    for (unsigned lane = 0; lane < LANES; lane++) {
        uint32_t w[SLOTS], later[SLOTS], row0[SLOTS], changed = 0;
        take_lane(w, before, LANES, lane);
        take_lane(later, after, LANES, lane);
        take_lane(row0, before, LANES, lane % 8);
        const uint32_t made = ind_stores(settings, lane, insn, w, row0);
        for (unsigned s = 0; s < SLOT_CONFIG; s++) changed += w[s] != later[s];
        t.made[insn[F_OP]][made]++;
        traffic[FLAG_TOO] += made == 1 && w[SLOT_FLAG] != later[SLOT_FLAG];
        traffic[FEWER_CHANGE] += changed < made;
        switch (insn[F_OP]) {
        case LOAD:   count_stored_load(insn[F_VD], w, made); break;
        case SWAP:   count_stored_swap(insn[F_VC], insn[F_VD], w, made); break;
        case CONFIG: count_stored_config(insn, lane % 8, w, row0); break;
        case LUT:    count_stored_lut(insn, w, made); break;
        }
    }
}

/* What a run changes, in a copy, so that its case can be run again. */
static uint32_t image[ROOM_IMAGE];
static uint16_t dst[ROOM_DST];

static void copy_lent(const struct run_case *c)
{
    memcpy(image, c->image, sizeof image);
    memcpy(dst, c->dst, sizeof dst);
}

/* What a refused run would count, if what it is refused for were put right, or left off with all that comes after it. */
static void count_untold(const struct run_case *c, uint32_t answer)
{
    static const uint32_t plain[8] = { 1, 1, 0, 0, 0, 0, 0, 0 };
    uint32_t o[RUN_OUTCOME], place;
    copy_lent(c);
    for (unsigned i = 0; i < IMAGE_WORDS; i++)
        if (!ind_slot_good(i / LANES, image[i])) image[i] = 0;
    size_t count = c->list_len / 6 < MAX_INSNS ? c->list_len / 6 : MAX_INSNS;
    if (ind_list_fault(c->list, count, &place) != 0) count = place;
    ind_run(plain, image, IMAGE_WORDS, dst, DST_CELLS, c->list, 6 * count, o);
    t.untold[0][answer] += columns_with(o + O_TIES) > 0;
    t.untold[1][answer] += columns_with(o + O_STORES) > 0;
}

/* The field without which an instruction would not be refused by 8. */
static int field_at_fault(const uint32_t *insn)
{
    for (int f = F_IMM; f < F_MOD; f++) {
        uint32_t mended[6];
        memcpy(mended, insn, sizeof mended);
        mended[f] = 0;
        if (ind_insn_fault(mended) != 8) return f;
    }
    return F_MOD;
}

static void count_refused(const uint32_t *insn)
{
    uint32_t op = insn[F_OP], mod = insn[F_MOD];
    t.refused[ind_op_known(op) ? op : OPS][mod < 16 ? mod : 16]++;
    if (ind_insn_fault(insn) == 8) t.field[op][field_at_fault(insn)]++;
}

static void count_answer(int where, uint32_t answer, const uint32_t *insn)
{
    t.answer[where][answer]++;
    t.cases[where]++;
    if (answer >= 7 && answer <= 9 && insn != NULL) count_refused(insn);
}

/* A list that was done or refused: one that is long, the longest, or one longer. */
static void count_length(int first, uint32_t answer, size_t list_len)
{
    const size_t count = list_len / 6;
    lengths[first] += answer == 0 && count > 1024 && count < 16384;
    lengths[first + 1] += answer == 0 && count == 16384;
    lengths[first + 2] += answer == 5 && count == 16385;
}

/* A run is done an instruction at a time, so that the image before each can be looked at. */
static void count_run(const struct run_case *c)
{
    static uint32_t before[IMAGE_WORDS];
    uint32_t settings[8], o[RUN_OUTCOME], last = 0, full = 0;
    copy_lent(c);
    ind_run(c->settings, image, c->image_len, dst, c->dst_len, c->list, c->list_len, o);
    count_answer(0, o[O_ANSWER], c->list + 6 * o[O_PLACE]);
    count_length(RUN_LONG, o[O_ANSWER], c->list_len);
    for (size_t i = 0; i < o[O_PLACE]; i++) stores[REFUSED_LATER] += c->list[6 * i] == STORE;
    if (o[O_ANSWER] != 0) {
        count_untold(c, o[O_ANSWER]);
        return;
    }
    count_counts(o + O_TIES, t.ties, ties + RUNS_WITH);
    count_counts(o + O_STORES, t.stored, traffic + STORING);
    for (int column = 0; column < COLUMNS; column++) full += o[O_STEPS] > 0 && o[O_STORES + column] == 16 * o[O_STEPS];
    traffic[STORING_MOST] += full == COLUMNS;
    copy_lent(c);
    memcpy(settings, c->settings, sizeof settings);
    for (size_t i = 0; i < c->list_len; i += 6) {
        const uint32_t *insn = c->list + i, addr = address(settings, insn);
        if (i > 0 && addr == last) count_pair(insn - 6, insn, image);
        count_done(settings, insn, image, 0, LANES, image + LANES * SLOT_CONFIG);
        memcpy(before, image, sizeof before);
        ind_run(settings, image, c->image_len, dst, c->dst_len, insn, 6, o);
        count_equal(insn, before, image);
        count_traffic(settings, insn, before, image);
        settings[S_CURSOR] = o[O_CURSOR];
        last = addr;
    }
}

static void count_lane(const struct lane_case *l)
{
    struct lane_case a = *l;
    uint32_t answer = ind_lane(a.settings, a.lane, a.insn, a.own, a.head, a.cells);
    count_answer(1, answer, l->insn);
    if (answer == 0) count_done(l->settings, l->insn, l->own, l->lane, 1, l->head + SLOT_CONFIG);
}

/* Written once more, with room for all, if it was refused for the room. */
static void count_writing(const struct writing_case *w)
{
    static uint8_t room[ROOM_TEXT];
    uint32_t answer = w->outcome[O_ANSWER], o[5];
    count_answer(2, answer, w->list + 6 * w->outcome[O_PLACE]);
    count_length(WRITE_LONG, answer, w->list_len);
    lengths[WRITE_FITS] += answer == 0 && w->room == w->outcome[O_LENGTH];
    if (answer != 11) return;
    ind_write(w->settings, w->list, w->list_len, room, ROOM_TEXT, o);
    lengths[w->room + 1 == o[O_LENGTH] ? WRITE_ONE_SHORT : WRITE_SHORT]++;
}

static bool begins(const uint8_t *text, size_t len, const char *bytes)
{
    return len >= strlen(bytes) && memcmp(text, bytes, strlen(bytes)) == 0;
}

/* The line's bytes up to its LF, or to the end of the text. The lines go from 1. */
static size_t line_of(const struct reading_case *r, uint32_t number, const uint8_t **line)
{
    const uint8_t *at = r->text, *end = r->text + r->text_len, *lf;
    for (; number > 1 && (lf = memchr(at, 10, (size_t)(end - at))) != NULL; number--) at = lf + 1;
    if (number > 1) at = end;
    lf = memchr(at, 10, (size_t)(end - at));
    *line = at;
    return (size_t)((lf != NULL ? lf : end) - at);
}

/* The digits of count in that line, if there is nothing else after its name. */
static uint32_t count_digits(const struct reading_case *r, uint32_t number, uint32_t *count)
{
    const uint8_t *line;
    size_t len = line_of(r, number, &line);
    *count = 0;
    if (!begins(line, len, "count=") || len > 15) return 0;
    for (size_t i = 6; i < len; i++) {
        if (line[i] < 48 || line[i] > 57) return 0;
        *count = *count * 10 + (line[i] - 48u);
    }
    return (uint32_t)len - 6;
}

static void count_first_line(const struct reading_case *r)
{
    const uint8_t *line;
    size_t len = line_of(r, 1, &line), kept = 0;
    char word[10] = "";
    for (size_t i = 0; i < len && kept < 9; i++)
        if (line[i] != 32) word[kept++] = (char)line[i];
    const bool spaces = kept < len, two = begins(line, len, "format=2");
    readings[FORMAT_1] += !spaces && strcmp(word, "format=1") == 0;
    readings[FORMAT_3] += !spaces && strcmp(word, "format=3") == 0;
    readings[FORMAT_CR] += two && len == 9 && line[8] == 13;
    readings[FORMAT_NO_LF] += two && (len == r->text_len || (len > 8 && line[8] != 13 && line[8] != 32));
    readings[FORMAT_SPACE] += spaces && strcmp(word, "format=2") == 0;
    readings[FORMAT_TWICE] += begins(r->text, r->text_len, "format=2\nformat=2\n");
    readings[FORMAT_ALONE] += begins(r->text, r->text_len, "format=2\n") && r->text_len == 9;
}

/* A reading's answer, and that of the same text with room for all. */
static void count_room(const struct reading_case *r, uint32_t answer, uint32_t whole, uint32_t length)
{
    readings[ROOM_FITS] += answer == 0 && r->room == length;
    if (answer != 11 || whole != 0) return;
    readings[r->room + 1 == length ? ROOM_ONE_SHORT : ROOM_SHORT]++;
    readings[MANY_ONE_SHORT] += r->room + 1 == length && length == 6 * 16384;
}

/* By the format: the header's last line is 9 of an old listing, and 10 of format 2. */
static void count_format(const struct reading_case *r, uint32_t answer, uint32_t place, const uint32_t *list, uint32_t length)
{
    const bool new = begins(r->text, r->text_len, "format=2\n");
    const uint32_t last = new ? 10 : 9, limit = new ? 16384 : 1024;
    const uint8_t *line;
    uint32_t count, digits = count_digits(r, last, &count), store = 0;
    t.read[new][answer]++;
    if (answer == 10) t.line[new][place < LINES ? place : LINES - 1]++;
    for (uint32_t i = 0; i < length; i += 6) store |= list[i] == STORE;
    readings[OLD_STORE] += !new && store;
    readings[new ? NEW_MOST : OLD_MOST] += answer == 0 && length == 6 * limit;
    readings[new ? NEW_ONE_OVER : OLD_ONE_OVER] += answer == 5 && count == limit + 1;
    readings[new ? NEW_OVER : OLD_OVER] += answer == 5 && count > limit + 1;
    readings[new ? NEW_FOUR : OLD_FIVE] += answer == 10 && place == last && digits == (new ? 4 : 5);
    readings[NEW_LONG] += new && answer == 0 && length > 6 * 1024 && length < 6 * 16384;
    if (answer != 10 || place <= last) return;
    readings[GOES_ON] += place == last + 1 + count;
    line_of(r, place, &line);
    readings[ENDS_EARLY] += line == r->text + r->text_len;
}

static void count_reading(const struct reading_case *r)
{
    static uint32_t list[ROOM_LIST];
    uint32_t settings[8], o[5], all[5];
    const uint32_t answer = ind_read(r->text, r->text_len, list, r->room, settings, o);
    count_answer(3, answer, NULL);
    count_first_line(r);
    count_format(r, answer, o[O_PLACE], list, o[O_LENGTH]);
    readings[LONG_TEXT] += answer == 0 && r->text_len > 65536;
    readings[TEXT_MOST] += r->text_len == 1048576;
    readings[TEXT_ONE_OVER] += r->text_len == 1048577;
    readings[TEXT_OVER] += r->text_len > 1048577;
    readings[LATE_LINE] += answer == 10 && o[O_PLACE] > 9999;
    readings[LATE_PLACE] += answer < 10 && o[O_PLACE] > 9999;
    ind_read(r->text, r->text_len, list, ROOM_LIST, settings, all);
    count_room(r, answer, all[O_ANSWER], all[O_LENGTH]);
}

static int why_twelve(const struct walk_case *w, uint32_t kind)
{
    const uint64_t at = w->walk[W_AT], count = w->run.list_len / 6, needed = ENTRY * (kind == FORWARD ? at + 1 : at);
    const bool one = w->store_len + 1 == needed;
    if (kind == FORWARD) return at == count ? FROM_END : at > count ? PAST_END : one ? ONE_SHORT : MORE_SHORT;
    return at == 0 ? FROM_START : at > count ? BACK_PAST_END : one ? BACK_ONE_SHORT : BACK_MORE_SHORT;
}

/* The entries of a walk's store as they were kept, to see what was changed since. */
static uint32_t kept[ROOM_STORE];

/* An entry that was just kept, what was kept in its room before it, and its instruction. */
static void count_kept(const uint32_t *entry, const uint32_t *room, const uint32_t *insn)
{
    walks[USED_AGAIN] += room[E_CURSOR] != UNWRITTEN;
    for (unsigned lane = 0; insn[F_OP] == STORE && lane < LANES; lane++) {
        uint32_t w[SLOTS];
        take_lane(w, entry, LANES, lane);
        bool by_address = entry[E_ADDRESS] >> 1 & 1;
        walks[KEPT_OFF] += !enabled(w);
        walks[KEPT_ADDRESS] += by_address;
        walks[KEPT_ROW0] += !by_address && entry[LANES * SLOT_CONFIG + lane % 8] >> 5 & 1;
    }
}

/* An entry that was just gone back over, as it is and as it was kept, and its instruction. */
static void count_undone(const uint32_t *entry, const uint32_t *once, const uint32_t *insn, bool changes_dst)
{
    const bool store = insn[F_OP] == STORE, never = once[E_CURSOR] == UNWRITTEN, changed = memcmp(entry, once, ENTRY * sizeof *entry) != 0;
    bool cell = false;
    for (unsigned lane = 0; lane < LANES; lane++) cell = cell || entry[E_CELLS + lane] > 65535;
    if (ind_op_known(insn[F_OP])) t.undone[insn[F_OP]][insn[F_MOD] < 16 ? insn[F_MOD] : 16]++;
    walks[BRINGS_CELL] += store && changes_dst;
    walks[NEVER_KEPT] += never;
    walks[NOT_AS_KEPT] += changed && !never;
    walks[ILL_FORMED] += !ind_image_good(entry);
    walks[BAD_CURSOR] += entry[E_CURSOR] > 1023;
    walks[BAD_ADDRESS] += store && entry[E_ADDRESS] > 1023;
    walks[BAD_CELL] += store && cell;
    walks[OVER_REFUSED] += ind_insn_fault(insn) != 0;
    walks[OVER_BAD_STORE] += store && ind_insn_fault(insn) != 0;
    if (!store || !changed || never) return;
    uint32_t bits = 0;
    for (unsigned c = 0; c < COLUMNS; c++) bits |= entry[LANES * SLOT_CONFIG + c] ^ once[LANES * SLOT_CONFIG + c];
    walks[OTHER_ROWS] += entry[E_ADDRESS] % 1024 / 4 != once[E_ADDRESS] / 4;
    walks[OTHER_COLUMN] += (entry[E_ADDRESS] >> 1 & 1) == 0 && (bits >> 5 & 1) == 1;
}

/* A step that was done: the walk before it had so many steps. */
static void count_step(const struct walk_case *w, uint32_t kind, uint32_t before, bool changes_dst)
{
    const uint32_t entry = kind == FORWARD ? before : before - 1;
    const uint32_t *insn = w->run.list + 6 * entry, *now = w->store + ENTRY * entry;
    uint32_t *once = kept + ENTRY * entry;
    if (kind == BACK) {
        count_undone(now, once, insn, changes_dst);
        return;
    }
    count_kept(now, once, insn);
    memcpy(once, now, ENTRY * sizeof *now);
    if (w->walk[W_AT] > walks[MOST_ENTRIES]) walks[MOST_ENTRIES] = w->walk[W_AT];
}

static void count_walk(const struct walk_case *c)
{
    static struct walk_case w;
    struct run_case *r = &w.run;
    uint32_t o[4], answer, last = 0;
    unsigned long done = 0, turns = 0;
    bool quiet = true;
    w = *c;
    memcpy(kept, w.store, sizeof kept);
    count_answer(4, ind_begin(r->settings, r->image, r->image_len, r->dst_len, r->list, r->list_len, o, w.walk), NULL);
    count_length(BEGIN_LONG, o[O_ANSWER], r->list_len);
    for (size_t i = 0; i < w.calls; i++) {
        const uint32_t kind = w.call[i].kind, before = w.walk[W_AT];
        memcpy(dst, r->dst, sizeof dst);
        if (!ind_call(&w, &w.call[i], &answer)) {
            quiet = false;
            continue;
        }
        count_answer(kind == FORWARD ? 5 : 6, answer, NULL);
        if (answer == 12) twelves[why_twelve(&w, kind)]++;
        if (answer != 0) continue;
        count_step(&w, kind, before, memcmp(dst, r->dst, sizeof dst) != 0);
        turns += last != 0 && kind != last;
        last = kind;
        done++;
    }
    if (done == 0) return;
    walks[QUIET_STEPS] += quiet ? done : 0;
    walks[ENDS_AT_START] += w.walk[W_AT] == 0;
    walks[ENDS_AT_END] += w.walk[W_AT] == r->list_len / 6;
    walks[TURNS] += turns >= 4;
    walks[STEPS_REFUSED_BEGIN] += o[O_ANSWER] != 0;
}

static void count_case(const struct any_case *c)
{
    switch (c->kind) {
    case RUN_CASE:     count_run(&c->run); break;
    case LANE_CASE:    count_lane(&c->lane); break;
    case WRITING_CASE: count_writing(&c->writing); break;
    case WALK_CASE:    count_walk(&c->walk); break;
    default:           count_reading(&c->reading);
    }
}

/* A row for each that has a name. Each count has six places, or more if one of them needs more. */
static void print_by(FILE *out, const char *what, const char *const *names, int rows, const unsigned long *counts, int width, int first, int columns)
{
    int places = 6;
    for (int i = 0; i < rows * width; i++) {
        int needed = snprintf(NULL, 0, "%lu", counts[i]);
        if (needed > places) places = needed;
    }
    fprintf(out, "\n%s\n        ", what);
    for (int i = first; i < columns; i++) fprintf(out, " %*d", places, i);
    fprintf(out, "\n");
    for (int row = 0; row < rows; row++) {
        if (names[row] == NULL) continue;
        fprintf(out, "%-8s", names[row]);
        for (int i = first; i < columns; i++) {
            if (counts[row * width + i] == 0) fprintf(out, " %*s", places, ".");
            else fprintf(out, " %*lu", places, counts[row * width + i]);
        }
        fprintf(out, "\n");
    }
}

static void print_lines(FILE *out, const char *what, const char *const *names, const unsigned long *counts, int lines)
{
    fprintf(out, "\n%s\n", what);
    for (int i = 0; i < lines; i++) fprintf(out, "%8lu  %s\n", counts[i], names[i]);
}

void ind_coverage(FILE *in, FILE *out)
{
    static struct any_case c;
    static const char *const mods[10] = { [2] = "STORE 2", [6] = "STORE 6", [7] = "STORE 7", [9] = "STORE 9" };
    static const char *const formats[2] = { "old", "format 2" };
    static const char *const lanes[3] = { "acting", "idle", "off" }, *const counts[2] = { "all runs", "most" }, *const untold[2] = { "ties", "stores" };
    const char *ops[OPS + 1];
    memcpy(ops, ind_names, sizeof ind_names);
    ops[OPS] = "unknown";
    while (ind_next(in, &c)) count_case(&c);

    fprintf(out, "answer     runs    lanes  writing  reading    begin  forward     back\n");
    for (int a = 0; a < 13; a++) {
        fprintf(out, "%6d", a);
        for (int i = 0; i < 7; i++) fprintf(out, " %8lu", t.answer[i][a]);
        fprintf(out, "\n");
    }
    fprintf(out, "   all");
    for (int i = 0; i < 7; i++) fprintf(out, " %8lu", t.cases[i]);
    fprintf(out, "\n");
    print_by(out, "executed, by mod", ops, OPS, t.mod[0], WORDS, 0, 16);
    print_by(out, "executed, by vd", ops, OPS, t.vd[0], WORDS, 0, 16);
    print_by(out, "executed, by edition", ops, OPS, t.edition[0], WORDS, 1, 3);
    print_by(out, "executed with a bit of LaneConfig set in an enabled lane", ops, OPS, t.config[0], 18, 0, 18);
    print_by(out, "refused by 7, 8 or 9, by mod (the last column: mod 16 and more)", ops, OPS + 1, t.refused[0], WORDS, 0, WORDS);
    print_by(out, "refused by 8, by field (1 imm, 2 vb, 3 vc, 4 vd, 5 mod, or several)", ops, OPS, t.field[0], WORDS, 1, 6);
    print_lines(out, "ties and NaN, in enabled lanes", rare_names, rare, RARE);
    print_lines(out, "STORE, by lanes and by instructions", store_names, stores, STORES);
    print_by(out, "STORE, and right after it LOAD of the same address: lanes that it fills, by LOAD's mod", mods, 10, t.pair[0], WORDS, 0, 16);
    print_by(out, "SWAP of two equal words in a run: lanes, by mod (a tie if acting, but for mod 0; idle: vd 12 to 15, bit 4 clear; off: not enabled)",
             lanes, 3, t.equal[0], WORDS, 0, 16);
    print_by(out, "ties that runs count, by column: of all runs, and the most of one", counts, 2, t.ties[0], COLUMNS, 0, COLUMNS);
    print_lines(out, "ties, by lanes and by runs", tie_names, ties, TIES);
    print_by(out, "stores to registers that lanes of runs make: lanes, by how many", ops, OPS, t.made[0], 5, 0, 5);
    print_by(out, "stores to registers that runs count, by column: of all runs, and the most of one", counts, 2, t.stored[0], COLUMNS, 0, COLUMNS);
    print_lines(out, "stores to registers, by lanes and by runs", traffic_names, traffic, TRAFFIC);
    print_by(out, "refused runs that count none, and would without what they are refused for, by answer", untold, 2, t.untold[0], 12, 1, 10);
    print_lines(out, "steps refused by 12", twelve_names, twelves, TWELVES);
    print_by(out, "steps back, by mod of the instruction that they go back over (the last column: mod 16 and more)", ops, OPS, t.undone[0], WORDS, 0, WORDS);
    print_lines(out, "walks, by cells, by steps and by walks", walk_names, walks, WALKS);
    print_lines(out, "lists by their length, and rooms that listings are written into", length_names, lengths, LENGTHS);
    print_by(out, "readings, by format and answer", formats, 2, t.read[0], 13, 0, 12);
    print_by(out, "readings refused by 10, by format and line (the last column: line 13 and more)", formats, 2, t.line[0], LINES, 1, LINES);
    print_lines(out, "readings, by text, by room, by format and by first line", reading_names, readings, READINGS);
}
