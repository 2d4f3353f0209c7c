/* The functional models, as loops over the lanes in the manner of documents 000 to 003 and 004's snippets,
 * with document 01's choices where it makes one. Floats are the C compiler's `float`. */
#include "independent.h"

#include <float.h>
#include <string.h>

/* The LUT sum needs two roundings to single precision, so no wider intermediate may be kept
 * (and the build turns contraction off). */
_Static_assert(FLT_EVAL_METHOD == 0, "float arithmetic must be done in float");
_Static_assert(sizeof(float) == 4 && FLT_MANT_DIG == 24, "float must be IEEE single precision");
_Static_assert(RUN_OUTCOME == 20, "a run's outcome has 20 words");

struct machine {
    uint32_t word[LANES][SLOTS];
    const uint32_t *head[COLUMNS];  /* row 0's lane of each column: the machine's own lane in a run, what was lent in a lane call */
    unsigned first, end;            /* the lanes an instruction goes over: all of them in a run, one in a lane call */
    uint16_t *dst;                  /* all of Dst in a run, an even and an odd cell in a lane call */
    uint32_t dst_mask;              /* the bits of a place that tell these cells apart */
    uint32_t edition, srcb, offset, cursor, stride[4];
    uint32_t ties[COLUMNS];         /* equal pairs that SWAP has compared so far */
    uint32_t stores[COLUMNS];       /* stores to registers so far */
};

enum { ENABLE_FP16A_INF = 1 << 0, BLOCK_SFPU_RD_FROM_DEST = 1 << 1, ENABLE_DEST_INDEX = 1 << 2, CAPTURE_DEFAULT_DEST_INDEX = 1 << 3,
       DISABLE_BACKDOOR_LOAD = 1 << 4, DEST_RD_COL_EXCHANGE = 1 << 5, EXCHANGE_SRCB_SRCC = 1 << 8 };

#define EACH_LANE(m, lane) for (unsigned lane = (m)->first; lane < (m)->end; lane++)

static uint32_t lreg(const struct machine *m, uint32_t reg, unsigned lane)
{
    switch (reg) {
    case 8:  return 0x3F56594B; /* M-100 */
    case 9:  return 0;
    case 10: return 0x3F800000;
    case 11: case 12: case 13: case 14: return m->word[lane][SLOT_R11 + reg - 11];
    case 15: return 2 * lane;
    default: return m->word[lane][reg];
    }
}

/* To registers 0 to 7 and 11 to 14. Nothing else stores to a register, so that M-106's count is of the stores as they are made, one after another. */
static void set_lreg(struct machine *m, uint32_t reg, unsigned lane, uint32_t value)
{
    m->word[lane][reg < 8 ? reg : SLOT_R11 + reg - 11] = value;
    m->stores[lane & 7]++;
}

static bool enabled(const struct machine *m, unsigned lane)
{
    return m->word[lane][SLOT_USE] == 0 || m->word[lane][SLOT_FLAG] == 1;
}

static bool config_bit(const struct machine *m, unsigned lane, uint32_t bit)
{
    return (m->word[lane][SLOT_CONFIG] & bit) != 0;
}

/* LOAD and STORE: where in Dst */

static uint32_t next_addr(struct machine *m, const uint32_t *insn)
{
    uint32_t addr = (insn[F_IMM] + m->offset + m->cursor) % 1024;
    m->cursor = (m->cursor + m->stride[insn[F_VB]]) % 1024;
    return addr;
}

/* Row times 16 plus column. */
static uint32_t place_of(const struct machine *m, unsigned lane, uint32_t addr)
{
    uint32_t row = (addr & ~3u) + lane / 8;
    uint32_t column = (lane & 7) * 2;
    if ((addr & 2) != 0 || (m->head[lane & 7][SLOT_CONFIG] & DEST_RD_COL_EXCHANGE) != 0) column += 1;
    return row * 16 + column;
}

static uint16_t *cell_at(const struct machine *m, uint32_t place) { return &m->dst[place & m->dst_mask]; }

/* LOAD: document 003 */

static uint32_t read_fp16(uint16_t x, bool inf)
{
    uint32_t sign = x >> 15, man = (x >> 5) & 0x3FF, exp = x & 0x1F;
    if (inf && exp == 0x1F && man == 0x3FF) exp = 255, man = 0;
    else if (exp != 0) exp += 112;
    return sign << 31 | exp << 23 | man << 13;
}

static uint32_t unshuffle_bf16(uint16_t x)
{
    uint32_t sign = x & 0x8000, exp = x & 0x00FF, man = x & 0x7F00;
    return sign | exp << 7 | man >> 8;
}

static uint32_t sign_mag(uint16_t x, unsigned drop, uint32_t mask)
{
    return (uint32_t)(x >> 15) << 31 | ((uint32_t)x >> drop & mask);
}

static uint32_t sign_mag_to_twos_comp(uint32_t x)
{
    uint32_t mag = x & 0x7FFFFFFF;
    return x >> 31 ? 0u - mag : mag;
}

static void sfpload(struct machine *m, const uint32_t *insn)
{
    const uint32_t vd = insn[F_VD], mod = insn[F_MOD] == 0 ? m->srcb : insn[F_MOD], addr = next_addr(m, insn);
    EACH_LANE(m, lane) {
        if (vd >= 8 || config_bit(m, lane, BLOCK_SFPU_RD_FROM_DEST) || !enabled(m, lane)) continue;
        uint32_t place = place_of(m, lane, addr), old = m->word[lane][vd], datum = 0;
        uint16_t cell = *cell_at(m, place);
        switch (mod) {
        case 1:  datum = read_fp16(cell, config_bit(m, lane, ENABLE_FP16A_INF)); break;
        case 2:  datum = unshuffle_bf16(cell) << 16; break;
        case 5:  datum = sign_mag(cell, 5, 0x7F); break;
        case 6:
        case 9:  datum = cell; break;
        case 7:  datum = (uint32_t)cell << 16; break;
        case 8:  datum = sign_mag(cell, 0, 0x7FFF); break;
        case 11: datum = 0; break;
        case 13: datum = sign_mag_to_twos_comp(sign_mag(cell, 5, 0x3FF)); break;
        case 14: datum = (old & 0xFFFF0000) | cell; break;
        case 15: datum = (uint32_t)cell << 16 | (old & 0xFFFF); break;
        }
        set_lreg(m, vd, lane, datum);
        if (vd < 4 && config_bit(m, lane, ENABLE_DEST_INDEX) && config_bit(m, lane, CAPTURE_DEFAULT_DEST_INDEX))
            set_lreg(m, vd + 4, lane, place);
    }
}

/* STORE: M-101. Bit 1 does not block it, and every register can be read. */

static uint32_t shuffle_bf16(uint32_t x)
{
    uint32_t sign = x & 0x8000, exp = x & 0x7F80, man = x & 0x007F;
    return sign | man << 8 | exp >> 7;
}

static void sfpstore(struct machine *m, const uint32_t *insn)
{
    const uint32_t addr = next_addr(m, insn);
    EACH_LANE(m, lane) {
        if (!enabled(m, lane)) continue;
        uint32_t datum = lreg(m, insn[F_VD], lane), high = datum >> 16, low = datum & 0xFFFF, cell = 0;
        switch (insn[F_MOD]) {
        case 2: cell = shuffle_bf16(high); break;
        case 6:
        case 9: cell = low; break;
        case 7: cell = high; break;
        }
        *cell_at(m, place_of(m, lane, addr)) = (uint16_t)cell;
    }
}

/* LUT: document 001, with document 01's two roundings and canonical NaN */

float ind_float_of(uint32_t bits)
{
    float f;
    memcpy(&f, &bits, sizeof f);
    return f;
}

static uint32_t bits_of(float f)
{
    uint32_t bits;
    memcpy(&bits, &f, sizeof bits);
    return bits;
}

static float lut8_to_fp32(uint32_t x)
{
    if (x == 0xFF) return 0;
    return ind_float_of(x >> 7 << 31 | (127 - (x >> 4 & 7)) << 23 | (x & 0xF) << 19);
}

static bool denormal_or_zero(uint32_t bits) { return (bits & 0x7F800000) == 0; }

bool ind_is_nan(uint32_t bits) { return (bits & 0x7FFFFFFF) > 0x7F800000; }

static void sfplut(struct machine *m, const uint32_t *insn)
{
    const uint32_t vd = insn[F_VD], mod = insn[F_MOD];
    EACH_LANE(m, lane) {
        if (!(vd < 12 || config_bit(m, lane, DISABLE_BACKDOOR_LOAD)) || !enabled(m, lane)) continue;
        const uint32_t *w = m->word[lane];
        uint32_t l3 = w[3], magnitude = l3 & 0x7FFFFFFF;
        float b = ind_float_of(denormal_or_zero(magnitude) ? 0 : magnitude);
        uint32_t coeffs = b < 1.0f ? w[0] : b < 2.0f ? w[1] : w[2];
        float a = lut8_to_fp32(coeffs >> 8 & 0xFF);
        float c = lut8_to_fp32(coeffs & 0xFF);
        float product = a * b;
        uint32_t d = bits_of(product + c);
        if (denormal_or_zero(d)) d &= 0x80000000;
        if (ind_is_nan(d)) d = 0x7FC00000;
        if (mod & 4) d = (d & 0x7FFFFFFF) | (l3 & 0x80000000);
        uint32_t target = mod & 8 ? w[7] & 15 : vd;
        if (target < 8) set_lreg(m, target, lane, d);
    }
}

/* SWAP: document 002, with M-102's comparison and its ties */

static int64_t rank(uint32_t x)
{
    return x >> 31 ? -1 - (int64_t)(x & 0x7FFFFFFF) : (int64_t)x;
}

enum order { BELOW, EQUAL, ABOVE };

static enum order compare(uint32_t x, uint32_t y)
{
    int64_t rank_x = rank(x), rank_y = rank(y);
    return rank_x < rank_y ? BELOW : rank_x > rank_y ? ABOVE : EQUAL;
}

static void sfpswap(struct machine *m, const uint32_t *insn)
{
    static const uint32_t vd_gets_min[16] = {
        0, 0xFFFFFFFF, 0x0000FFFF, 0x00FF00FF, 0xFF0000FF, 0x000000FF, 0x0000FF00, 0x00FF0000, 0xFF000000,
    };
    const uint32_t vc = insn[F_VC], vd = insn[F_VD], mod = insn[F_MOD];
    EACH_LANE(m, lane) {
        if (!(vd < 12 || config_bit(m, lane, DISABLE_BACKDOOR_LOAD)) || !enabled(m, lane)) continue;
        uint32_t vc_val = lreg(m, vc, lane), vd_val = lreg(m, vd, lane);
        bool should_swap = true;
        if (mod != 0) {
            enum order order = compare(vc_val, vd_val);
            if (order == EQUAL) m->ties[lane & 7]++;
            should_swap = vd_gets_min[mod] >> lane & 1 ? order == BELOW : order != BELOW;
            if (config_bit(m, lane, EXCHANGE_SRCB_SRCC)) should_swap = !should_swap;
        }
        if (!should_swap) continue;
        uint32_t writable = config_bit(m, lane, ENABLE_DEST_INDEX) ? 4 : 8;
        if (vc < writable) set_lreg(m, vc, lane, vd_val);
        if (vd < writable) set_lreg(m, vd, lane, vc_val);
        if (config_bit(m, lane, ENABLE_DEST_INDEX)) {
            uint32_t vca = 4 + (vc & 3), vda = 4 + (vd & 3), vca_val = lreg(m, vca, lane), vda_val = lreg(m, vda, lane);
            set_lreg(m, vca, lane, vda_val);
            set_lreg(m, vda, lane, vca_val);
        }
    }
}

/* CONFIG: document 000 */

static uint32_t combine(uint32_t original, uint32_t value, uint32_t mod)
{
    switch (mod & 6) {
    case 2:  return original | value;
    case 4:  return original & value;
    case 6:  return original ^ value;
    default: return value;
    }
}

static void sfpconfig(struct machine *m, const uint32_t *insn)
{
    const uint32_t imm = insn[F_IMM], vd = insn[F_VD], mod = insn[F_MOD];
    const bool imm_is_value = mod & 1, imm_is_mask = mod & 8;
    const uint32_t defaults[4] = { 0xBF800000, m->edition == 1 ? 0x37800000 : 0x3B000000, 0xBF2CC4C7, 0xBEB08FF9 };
    EACH_LANE(m, lane) {
        const uint32_t *head = m->head[lane & 7];
        uint32_t *w = m->word[lane];
        if (imm_is_mask && (imm >> (lane & 7) * 2 & 1) == 0) continue;
        if (head[SLOT_USE] == 1 && head[SLOT_FLAG] == 0) continue;
        uint32_t value = imm_is_value ? imm : head[0];
        if (vd < 4) {
            w[SLOT_TEMPLATE + vd] = head[0];
        } else if (vd < 8) {
            w[SLOT_SEQUENCE + vd - 4] = value;
        } else if (vd == 8) {
            w[SLOT_MISC] = combine(w[SLOT_MISC], value % 4096, mod);
        } else if (vd == 15) {
            uint32_t original = w[SLOT_CONFIG];
            w[SLOT_CONFIG] = combine(original, value % 262144, mod);
            if (imm_is_value) w[SLOT_CONFIG] |= original & ~0xFFFFu;
        } else if (vd >= 11) {
            set_lreg(m, vd, lane, imm_is_value ? defaults[vd - 11] : head[0]);
        }
    }
}

/* The others: document 004. Each keeps a value for vd; only IADD, LZ and EXEXP touch the flag. */

static void sfploadi(struct machine *m, const uint32_t *insn)
{
    const uint32_t imm = insn[F_IMM], vd = insn[F_VD];
    EACH_LANE(m, lane) {
        if (!enabled(m, lane) || vd >= 8) continue;
        uint32_t old = lreg(m, vd, lane);
        set_lreg(m, vd, lane, insn[F_MOD] == 8 ? imm << 16 | (old & 0xFFFF) : (old & 0xFFFF0000) | imm);
    }
}

static void sfpiadd(struct machine *m, const uint32_t *insn)
{
    const uint32_t vc = insn[F_VC], vd = insn[F_VD], mod = insn[F_MOD];
    const uint32_t imm = insn[F_IMM] & 0x800 ? insn[F_IMM] | 0xFFFFF000 : insn[F_IMM];
    EACH_LANE(m, lane) {
        if (!enabled(m, lane) || vd >= 8) continue;
        uint32_t c = lreg(m, vc, lane), d = lreg(m, vd, lane), *flag = &m->word[lane][SLOT_FLAG], result;
        if (mod & 1) result = c + imm;
        else if (mod & 2) result = c - d;
        else result = c + d;
        set_lreg(m, vd, lane, result);
        if (!(mod & 4)) *flag = result >> 31;
        if (mod & 8) *flag = !*flag;
    }
}

static void sfpabs(struct machine *m, const uint32_t *insn)
{
    EACH_LANE(m, lane) {
        if (!enabled(m, lane) || insn[F_VD] >= 8) continue;
        uint32_t c = lreg(m, insn[F_VC], lane), result;
        if (insn[F_MOD] == 0) result = c >> 31 ? 0u - c : c;
        else result = ind_is_nan(c) ? c : c & 0x7FFFFFFF;
        set_lreg(m, insn[F_VD], lane, result);
    }
}

static void sfpbitwise(struct machine *m, const uint32_t *insn)
{
    EACH_LANE(m, lane) {
        if (!enabled(m, lane) || insn[F_VD] >= 8) continue;
        uint32_t c = lreg(m, insn[F_VC], lane), other = lreg(m, insn[F_MOD] == 1 ? insn[F_VB] : insn[F_VD], lane), result = 0;
        switch (insn[F_OP]) {
        case AND: result = other & c; break;
        case OR:  result = other | c; break;
        case XOR: result = other ^ c; break;
        case NOT: result = ~c; break;
        }
        set_lreg(m, insn[F_VD], lane, result);
    }
}

static void sfplz(struct machine *m, const uint32_t *insn)
{
    const uint32_t vd = insn[F_VD], mod = insn[F_MOD];
    EACH_LANE(m, lane) {
        if (!enabled(m, lane) || vd >= 8) continue;
        uint32_t c = lreg(m, insn[F_VC], lane), *flag = &m->word[lane][SLOT_FLAG], zeros = 0;
        if (mod & 4) c &= 0x7FFFFFFF;
        while (zeros < 32 && (c << zeros & 0x80000000) == 0) zeros++;
        set_lreg(m, vd, lane, zeros);
        if (mod & 2) *flag = c != 0;
        if (mod & 8) *flag = !*flag;
    }
}

static void sfpexexp(struct machine *m, const uint32_t *insn)
{
    const uint32_t vd = insn[F_VD], mod = insn[F_MOD];
    EACH_LANE(m, lane) {
        if (!enabled(m, lane) || vd >= 8) continue;
        uint32_t exp = lreg(m, insn[F_VC], lane) >> 23 & 0xFF, *flag = &m->word[lane][SLOT_FLAG];
        uint32_t result = mod & 1 ? exp : exp - 127;
        set_lreg(m, vd, lane, result);
        if (mod & 2) *flag = result >> 31;
        if (mod & 8) *flag = !*flag;
    }
}

static void sfpexman(struct machine *m, const uint32_t *insn)
{
    EACH_LANE(m, lane) {
        if (!enabled(m, lane) || insn[F_VD] >= 8) continue;
        uint32_t hidden = insn[F_MOD] & 1 ? 0 : 1u << 23;
        set_lreg(m, insn[F_VD], lane, hidden + (lreg(m, insn[F_VC], lane) & 0x7FFFFF));
    }
}

static void step(struct machine *m, const uint32_t *insn)
{
    switch (insn[F_OP]) {
    case LOAD:   sfpload(m, insn); break;
    case LOADI:  sfploadi(m, insn); break;
    case LUT:    sfplut(m, insn); break;
    case SWAP:   sfpswap(m, insn); break;
    case CONFIG: sfpconfig(m, insn); break;
    case IADD:   sfpiadd(m, insn); break;
    case ABS:    sfpabs(m, insn); break;
    case AND:
    case OR:
    case XOR:
    case NOT:    sfpbitwise(m, insn); break;
    case LZ:     sfplz(m, insn); break;
    case EXEXP:  sfpexexp(m, insn); break;
    case EXMAN:  sfpexman(m, insn); break;
    case NOP:    break;
    case STORE:  sfpstore(m, insn); break;
    }
}

static void set_up(struct machine *m, const uint32_t settings[8])
{
    memset(m, 0, sizeof *m);
    m->edition = settings[S_EDITION];
    m->srcb = settings[S_SRCB];
    m->offset = settings[S_OFFSET];
    m->cursor = settings[S_CURSOR];
    for (int i = 0; i < 4; i++) m->stride[i] = settings[S_STRIDE0 + i];
}

uint32_t ind_run(const uint32_t settings[8], uint32_t *image, size_t image_len, uint16_t *dst, size_t dst_len,
                 const uint32_t *list, size_t list_len, uint32_t outcome[RUN_OUTCOME])
{
    uint32_t place, answer = ind_run_fault(settings, image, image_len, dst_len, list, list_len, &place);
    outcome[O_ANSWER] = answer;
    outcome[O_STEPS] = 0;
    outcome[O_PLACE] = place;
    outcome[O_CURSOR] = settings[S_CURSOR];
    for (unsigned c = 0; c < COLUMNS; c++) outcome[O_TIES + c] = outcome[O_STORES + c] = 0;
    if (answer != 0) return answer;

    struct machine m;
    set_up(&m, settings);
    m.dst = dst;
    m.dst_mask = DST_CELLS - 1;
    m.first = 0;
    m.end = LANES;
    for (unsigned c = 0; c < COLUMNS; c++) m.head[c] = m.word[c];
    for (unsigned i = 0; i < IMAGE_WORDS; i++) m.word[i % LANES][i / LANES] = image[i];
    for (size_t i = 0; i < list_len; i += 6) step(&m, list + i);
    for (unsigned i = 0; i < IMAGE_WORDS; i++) image[i] = m.word[i % LANES][i / LANES];

    outcome[O_STEPS] = (uint32_t)(list_len / 6);
    outcome[O_CURSOR] = m.cursor;
    for (unsigned c = 0; c < COLUMNS; c++) outcome[O_TIES + c] = m.ties[c], outcome[O_STORES + c] = m.stores[c];
    return 0;
}

/* Row 0's lane is as given, even where the lane is itself in row 0. */
static void step_lane(struct machine *m, const uint32_t settings[8], uint32_t lane, const uint32_t *insn, const uint32_t *own, const uint32_t *head,
                      uint16_t cells[2])
{
    set_up(m, settings);
    m->first = lane;
    m->end = lane + 1;
    m->dst = cells;
    m->dst_mask = 1;
    m->head[lane % 8] = head;
    memcpy(m->word[lane], own, sizeof m->word[lane]);
    step(m, insn);
}

uint32_t ind_lane(const uint32_t settings[8], uint32_t lane, const uint32_t insn[6], uint32_t own[24], const uint32_t head[24],
                  uint16_t cells[2])
{
    if (!ind_settings_good(settings)) return 3;
    for (unsigned s = 0; s < SLOTS; s++)
        if (!ind_slot_good(s, own[s]) || !ind_slot_good(s, head[s])) return 6;
    uint32_t fault = ind_insn_fault(insn);
    if (fault == 7) return 7;
    if (fault == 8 || lane > 31) return 8;
    if (fault == 9) return 9;

    struct machine m;
    step_lane(&m, settings, lane, insn, own, head, cells);
    memcpy(own, m.word[lane], sizeof m.word[lane]);
    return 0;
}

uint32_t ind_stores(const uint32_t settings[8], uint32_t lane, const uint32_t insn[6], const uint32_t own[24], const uint32_t head[24])
{
    struct machine m;
    uint16_t cells[2] = { 0, 0 };
    step_lane(&m, settings, lane, insn, own, head, cells);
    return m.stores[lane % 8];
}
