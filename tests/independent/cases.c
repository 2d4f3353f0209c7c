/* Cases made from a seed, and written in the form of tests/CASES.md. Nothing else makes cases. */
#include "independent.h"

#include <inttypes.h>
#include <string.h>

static const uint32_t special[32] = {
    0x00000000, 0x80000000, 0x00000001, 0x807FFFFF, 0x00800000, 0x80FFFFFF, 0x3F7FFFFF, 0x3F800000,
    0xBF800001, 0x3FFFFFFF, 0xC0000000, 0x7F7FFFFF, 0x7F800000, 0xFF800000, 0x7FC00000, 0xFF800001,
    0x00007FFF, 0x0000F0FF, 0x0000FF80, 0x0000FFFF, 0x00000080, 0x00008F7F, 0xFFFF1FFF, 0x7FFFFFFF,
    0xFFFFFFFF, 0x00000002, 0x00000005, 0x80000005, 0xFFFFFFFB, 0x00000800, 0x80000001, 0x40000001,
};
static const uint16_t cells[16] = {
    0x0000, 0x8000, 0x7FFF, 0xFFFF, 0x007F, 0x807F, 0x001F, 0x7FDF, 0x7FE0, 0xFFE0, 0x00FF, 0x80FF, 0x00A0, 0x80A0, 0x1FE0, 0x0001,
};
static const uint8_t likely[16] = { 48, 49, 50, 53, 57, 61, 32, 10, 13, 111, 65, 68, 73, 47, 58, 0 };
static const char *const odd_names[6] = { "LOADX", "LOA", "Nop", "", "SFPABS", "STOR" };
/* Instead of format=2, or before an old listing. */
static const char *const first_lines[16] = {
    "format=1\n", "format=3\n", "format=2\r\n", "format=2", " format=2\n", "format=2 \n", "format= 2\n", "format=02\n", "format=2\nformat=2\n", "format=1\n",
    "format=3\n", "\nformat=2\n", "format=2\n\n", "FORMAT=2\n", "format=\n", "format=2\n",
};
/* By 9 for LOAD, and for STORE by 8 like any other. */
static const uint32_t refused_mods[4] = { 3, 4, 10, 12 };

/* Not shared with checks.c: a slip in one of the two tables should show as a difference. */
static const uint32_t limits[OPS][4] = {
    [LOAD] = { 1024, 4, 1, 16 }, [LOADI] = { 65536, 1, 1, 16 }, [LUT] = { 1, 1, 1, 16 }, [SWAP] = { 1, 1, 16, 16 },
    [CONFIG] = { 65536, 1, 1, 16 }, [IADD] = { 4096, 1, 16, 16 }, [ABS] = { 1, 1, 16, 16 }, [AND] = { 1, 16, 16, 16 },
    [OR] = { 1, 16, 16, 16 }, [XOR] = { 1, 1, 16, 16 }, [NOT] = { 1, 1, 16, 16 }, [LZ] = { 1, 1, 16, 16 },
    [EXEXP] = { 1, 1, 16, 16 }, [EXMAN] = { 1, 1, 16, 16 }, [NOP] = { 1, 1, 1, 1 },
    [STORE] = { 1024, 4, 1, 16 },
};
#define ALL_MODS { 0, 1, 2, 3, 4, 5, 6, 7, 8, 9, 10, 11, 12, 13, 14, 15 }
#define MODS_01  { 0, 1, 0, 1, 0, 1, 0, 1, 0, 1, 0, 1, 0, 1, 0, 1 }
static const uint8_t mods[OPS][16] = {
    [LOAD] = { 0, 1, 2, 5, 6, 7, 8, 9, 11, 13, 14, 15, 0, 1, 2, 13 },
    [LOADI] = { 8, 10, 8, 10, 8, 10, 8, 10, 8, 10, 8, 10, 8, 10, 8, 10 },
    [LUT] = { 0, 4, 8, 12, 0, 4, 8, 12, 0, 4, 8, 12, 0, 4, 8, 12 },
    [SWAP] = ALL_MODS, [CONFIG] = ALL_MODS, [IADD] = ALL_MODS, [ABS] = MODS_01, [AND] = MODS_01, [OR] = MODS_01,
    [LZ] = { 0, 2, 4, 6, 8, 10, 12, 14, 0, 2, 4, 6, 8, 10, 12, 14 },
    [EXEXP] = { 0, 1, 2, 3, 8, 9, 10, 11, 0, 1, 2, 3, 8, 9, 10, 11 },
    [EXMAN] = MODS_01,
    [STORE] = { 2, 6, 7, 9, 2, 6, 7, 9, 2, 6, 7, 9, 2, 6, 7, 9 },
};

/* Draws */

static uint32_t x;

static uint32_t draw(void)
{
    x = x * 1664525u + 1013904223u;
    return x / 65536;
}

static uint32_t below(uint32_t n) { return draw() % n; }

static uint32_t word(void)
{
    uint32_t high = draw();
    return high * 65536 + draw();
}

/* Each kind of case throws away another number of draws, so that no two begin alike. */
static void start(uint32_t seed, uint32_t k, int thrown_away)
{
    x = seed + k * 2654435761u;
    while (thrown_away-- > 0) draw();
}

/* Pieces. Small numbers take fewer bytes, so most are small. */

static FILE *out;

static void put(uint32_t n) { ind_put(out, n); }

static void put_all(const uint32_t *words, size_t count)
{
    for (size_t i = 0; i < count; i++) put(words[i]);
}

static void make_settings(uint32_t settings[8])
{
    for (int i = 0; i < 2; i++) settings[i] = 1 + below(2);
    for (int i = 2; i < 8; i++) {
        uint32_t t = below(8), v = below(1024);
        settings[i] = t < 2 ? 0 : t == 2 ? 1023 : t < 6 ? v % 128 : v;
    }
}

static void make_op(uint32_t insn[6], uint32_t op)
{
    insn[F_OP] = op;
    for (int f = 0; f < 3; f++) insn[F_IMM + f] = below(limits[op][f]);
    uint32_t d = below(32), m = below(16);
    insn[F_MOD] = mods[op][m];
    insn[F_VD] = op == NOP ? 0 : d < 16 ? d : op == CONFIG ? 8 + d % 8 : op == STORE ? d % 16 : d % 8;
    if ((op == AND || op == OR) && insn[F_MOD] == 0) insn[F_VB] = 0;
}

static void make_insn(uint32_t insn[6]) { make_op(insn, 1 + below(OPS - 1)); }

/* A STORE and right after it a LOAD of the same address, in any two of STORE's mods; at times in Dst's last rows. */
static void make_pair(const uint32_t settings[8], uint32_t *store)
{
    uint32_t *load = store + 6;
    make_op(store, STORE);
    make_op(load, LOAD);
    if (below(4) == 0) store[F_IMM] = (1021 + below(3) + 2048 - settings[S_OFFSET] - settings[S_CURSOR]) % 1024;
    load[F_IMM] = (store[F_IMM] + 1024 - settings[S_STRIDE0 + store[F_VB]]) % 1024;
    load[F_VD] %= 8;
    load[F_MOD] = mods[STORE][below(16)];
}

/* Any mod, 0 too, and any two registers; more often the same one twice, those for which a lane acts only by its bit 4, and those that share words. */
static void make_swap(uint32_t insn[6])
{
    make_op(insn, SWAP);
    uint32_t t = below(8);
    if (t == 0) insn[F_VD] = insn[F_VC];
    else if (t < 3) insn[F_VD] = 12 + below(4);
    else if (t < 6) insn[F_VC] %= 8, insn[F_VD] %= 8;
}

/* What makes other numbers of stores in a lane: LOADs that may capture, SWAPs of one register or of one index register, CONFIG, and LUT by register 7. */
static void make_storing(uint32_t insn[6])
{
    uint32_t t = below(8), v = below(4), mod0 = below(2);
    if (t < 2) {
        make_op(insn, LOAD);
        insn[F_VD] %= 8;
    } else if (t < 5) {
        make_op(insn, SWAP);
        if (v == 0) insn[F_VD] = insn[F_VC];
        else if (v < 3) insn[F_VD] = (insn[F_VC] + 4 * below(4)) % 16;
        else insn[F_VC] %= 4, insn[F_VD] %= 4;
        if (mod0 == 0) insn[F_MOD] = 0;
    } else if (t < 7) {
        make_op(insn, CONFIG);
        if (t == 5) insn[F_VD] = 11 + v;
    } else {
        make_op(insn, LUT);
        insn[F_MOD] |= 8;
    }
}

/* The most instructions of a list, by M-105, and of an old listing, which was every list's once. Not shared with listing.c either. */
enum { MOST = 16384, OLD_MOST = 1024 };

/* A list: the instructions that are given, which repeat up to its length. */
struct list {
    uint32_t word[ROOM_LIST];
    size_t given, len;
};

static void make_list(struct list *l, uint32_t count, uint32_t most)
{
    l->given = count < most ? count : most;
    l->len = 6 * (size_t)count;
    for (size_t i = 0; i < l->given; i++) make_insn(l->word + 6 * i);
}

/* Mostly SWAPs; the others make words, flags and LaneConfig change under them. */
static void make_tie_list(struct list *l, uint32_t count, uint32_t most)
{
    make_list(l, count, most);
    for (size_t i = 0; i < l->given; i++)
        if (i == 0 || below(4) > 0) make_swap(l->word + 6 * i);
}

/* Mostly such instructions; the others store to one register at most, and change flags under them. */
static void make_storing_list(struct list *l, uint32_t count, uint32_t most)
{
    make_list(l, count, most);
    for (size_t i = 0; i < l->given; i++)
        if (below(4) > 0) make_storing(l->word + 6 * i);
}

static void put_list(const struct list *l)
{
    put((uint32_t)(6 * l->given));
    put_all(l->word, 6 * l->given);
}

/* Damage */

static uint32_t out_of(uint32_t limit, uint32_t v, uint32_t d) { return v == 1 ? limit + d : v == 2 ? 4294967295u : limit; }

static void damage_setting(uint32_t settings[8])
{
    uint32_t i = below(8), v = below(4), w = word(), high = i < 2 ? 3 : 1024;
    settings[i] = v == 0 ? high : v == 1 ? high + w % 65536 : v == 2 ? w : 0;
}

static void damage_length(struct list *l)
{
    uint32_t e = 1 + below(5), t = below(2);
    if (t == 1 && l->len >= 6) l->len -= e;
    else l->len += e;
}

static void damage_too_many(struct list *l)
{
    uint32_t e = below(12);
    l->len = e < 6 ? 6 * (MOST + 1) + e : e == 6 ? ROOM_LIST : 6 * (MOST + 1);
}

static uint32_t load_or_store(void) { return below(3) == 0 ? STORE : LOAD; }

/* An instruction among `count`. At times it comes after a STORE, which must not be done then. */
static void damage_insn(uint32_t *list, size_t count)
{
    if (count == 0) return;
    uint32_t t = below(4), q = below((uint32_t)count), place = t == 0 ? 0 : t == 1 ? (uint32_t)count - 1 : q;
    uint32_t *insn = list + 6 * place, z = below(12);
    if (place > 0 && below(2) == 0) make_op(insn - 6, STORE);
    if (z < 1) {
        uint32_t v = below(4), w = word();
        insn[F_OP] = v == 0 ? 0 : v == 1 ? OPS : v == 2 ? OPS + w % 65536 : w;
    } else if (z < 6) {
        uint32_t f = below(5), v = below(4), d = draw();
        uint32_t row = ind_op_known(insn[F_OP]) ? insn[F_OP] : NOP;
        insn[F_IMM + f] = out_of(f == 4 ? 16 : limits[row][f], v, d);
    } else if (z == 6) {
        insn[F_OP] = 8 + below(2);
        insn[F_IMM] = 0;
        insn[F_VB] = 1 + below(15);
        insn[F_VC] = below(16);
        insn[F_VD] = below(16);
        insn[F_MOD] = 0;
    } else if (z < 10) {
        insn[F_MOD] = below(17);
    } else {
        insn[F_OP] = load_or_store();
        insn[F_IMM] = below(1024);
        insn[F_VB] = below(4);
        insn[F_VC] = below(4) == 0;
        insn[F_VD] = below(16);
        insn[F_MOD] = refused_mods[below(4)];
    }
}

/* By each of 7, 8 and 9 alike, and often a STORE. */
static void damage_one(uint32_t *insn)
{
    uint32_t t = below(4), w = word();
    if (t == 0) {
        insn[F_OP] = OPS + w % 65536;
    } else if (t == 1) {
        damage_insn(insn, 1);
    } else {
        make_op(insn, t == 2 ? LOAD : STORE);
        insn[F_MOD] = refused_mods[w % 4];
    }
}

static int damages(void)
{
    uint32_t t = below(12);
    return t < 1 ? 1 : t < 4 ? 2 : 0;
}

/* Images: a seed, and words that stand in a row of lanes. */

struct image {
    uint32_t seed, changes, change[12][3];
};

struct lanes {
    uint32_t first, count;
};

static void change(struct image *i, uint32_t slot, struct lanes lanes, uint32_t w)
{
    uint32_t *row = i->change[i->changes++];
    row[0] = LANES * slot + lanes.first;
    row[1] = lanes.count;
    row[2] = w;
}

static const struct lanes all_lanes = { 0, LANES };

static struct lanes some_lanes(void)
{
    struct lanes lanes = { below(LANES), 1 };
    if (below(3) > 0) lanes.count += below(LANES - lanes.first);
    return lanes;
}

static void make_image(struct image *i)
{
    i->seed = 1 + below(16383);
    i->changes = 0;
    uint32_t configs = below(8), uses = below(4), same = below(8);
    if (configs < 3) change(i, SLOT_CONFIG, all_lanes, 0);
    else if (configs < 6) change(i, SLOT_CONFIG, all_lanes, 1u << below(18));
    if (uses == 0) change(i, SLOT_USE, all_lanes, 0);
    else if (uses == 1) {
        uint32_t use = below(2);
        change(i, SLOT_USE, some_lanes(), use);
    }
    if (same == 0) {
        /* Two registers alike, for the ties of SWAP. */
        struct lanes lanes = some_lanes();
        uint32_t w = special[below(32)], first = below(8);
        change(i, first, lanes, w);
        change(i, (first + 1 + below(7)) % 8, lanes, w);
    } else if (same == 1) {
        uint32_t w = special[below(32)];
        struct lanes lanes = some_lanes();
        change(i, below(8), lanes, w);
    }
}

/* A word that another register may hold too: one of those that are never stored, a likely one, or any. */
static uint32_t tie_word(void)
{
    static const uint32_t fixed[4] = { 0x3F56594B, 0, 0x3F800000, 2 };
    switch (below(4)) {
    case 0:  return fixed[below(4)];
    case 1:  return 2 * below(LANES);       /* register 15's, in one lane */
    case 2:  return special[below(32)];
    default: return word();
    }
}

/* Registers share words: a word stands in several registers in a row, from some lane of the first to some lane of the last. */
static void make_tie_image(struct image *i)
{
    i->seed = 1 + below(16383);
    i->changes = 0;
    uint32_t configs = below(8), bits = below(8), uses = below(4), more = 1 + below(3);
    struct lanes lanes = some_lanes();
    if (configs < 5) change(i, SLOT_CONFIG, all_lanes, 0);
    if (configs > 0 && configs < 7) change(i, SLOT_CONFIG, lanes, (bits & 1) << 2 | (bits & 2) << 3 | (bits & 4) << 6);
    if (uses < 2) change(i, SLOT_USE, all_lanes, 0);
    if (uses == 1) {
        lanes = some_lanes();
        change(i, SLOT_FLAG, lanes, 0);
        change(i, SLOT_USE, lanes, 1);
    }
    lanes.first = below(LANES);
    lanes.count = LANES * 6 + below(LANES * 5);
    change(i, 0, lanes, tie_word());
    for (; more > 0; more--) {
        lanes.first = below(LANES * 8);
        lanes.count = 1 + below(LANES * 4);
        change(i, 0, lanes, tie_word());
    }
}

/* LaneConfig with bits 2 and 3, mostly both, at times with 1, 4 or 8, in all lanes or in some; lanes not enabled, of row 0 too; and what register 7 names. */
static void make_storing_image(struct image *i)
{
    static const uint32_t configs[8] = { 0, 4, 8, 12, 12, 12 + 16, 12 + 256, 12 + 2 };
    i->seed = 1 + below(16383);
    i->changes = 0;
    uint32_t all = below(8), some = below(8), uses = below(4), named = below(32);
    struct lanes lanes = some_lanes();
    change(i, SLOT_CONFIG, all_lanes, configs[all]);
    if (some > 1) change(i, SLOT_CONFIG, lanes, configs[some]);
    if (uses < 2) change(i, SLOT_USE, all_lanes, 0);
    if (uses == 1) {
        lanes = some_lanes();
        change(i, SLOT_FLAG, lanes, 0);
        change(i, SLOT_USE, lanes, 1);
    }
    if (named < 16) {
        lanes = some_lanes();
        change(i, 7, lanes, named);
    }
}

static void damage_image(struct image *i)
{
    static const uint32_t slots[4] = { SLOT_CONFIG, SLOT_FLAG, SLOT_USE, SLOT_MISC };
    static const uint32_t limit[4] = { 262144, 2, 2, 4096 };
    uint32_t way = below(4), lane = below(32), v = below(3), d = draw();
    change(i, slots[way], (struct lanes){ lane, 1 }, out_of(limit[way], v, d));
}

static void put_image(const struct image *i)
{
    put(i->seed);
    put(i->changes);
    put_all(i->change[0], 3 * (size_t)i->changes);
}

/* Runs */

/* Few are long: an instruction more than there once could be, and as many as there can be. */
static uint32_t run_count(void)
{
    uint32_t t = below(64);
    if (t < 2) return t;
    if (t == 2) {
        uint32_t v = below(8);
        return v == 0 ? MOST : v < 4 ? OLD_MOST + 1 : OLD_MOST;
    }
    if (t == 3) return below(OLD_MOST + 1);
    return 1 + below(t < 24 ? 8 : 40);
}

struct run {
    uint32_t settings[8], image_len, dst_len;
    struct list list;
    struct image image;
};

static void damage_run(struct run *r)
{
    uint32_t t, v;
    switch (below(10)) {
    case 0:
        t = below(4), v = below(1025);
        r->image_len = t == 0 ? 767 : t == 1 ? 769 : t == 2 ? 0 : v;
        break;
    case 1:
        t = below(4), v = below(16401);
        r->dst_len = t == 0 ? 16383 : t == 1 ? 16385 : t == 2 ? 0 : v;
        break;
    case 2: damage_setting(r->settings); break;
    case 3: damage_length(&r->list); break;
    case 4: damage_too_many(&r->list); break;
    case 5: damage_image(&r->image); break;
    default: damage_insn(r->list.word, r->list.given);
    }
}

/* What is lent, after the case's kind. */
static void put_lent(const struct run *r)
{
    put_all(r->settings, 8);
    put_list(&r->list);
    put_image(&r->image);
    put(r->image_len);
    put(r->dst_len);
    put((uint32_t)r->list.len);
}

static void put_run(const struct run *r)
{
    put(RUN_CASE);
    put_lent(r);
}

static void make_run(void)
{
    static struct run r;
    uint32_t count = run_count();
    r.image_len = IMAGE_WORDS, r.dst_len = DST_CELLS;
    make_settings(r.settings);
    make_list(&r.list, count, 1 + below(6));
    if (r.list.given >= 2 && below(4) == 0) make_pair(r.settings, r.list.word + 6 * below((uint32_t)r.list.given - 1));
    make_image(&r.image);
    for (int n = damages(); n > 0; n--) damage_run(&r);
    put_run(&r);
}

/* The longest list, of one SWAP, in every lane. */
static void make_all_swaps(struct run *r)
{
    r->list.given = 1, r->list.len = 6 * MOST;
    make_op(r->list.word, SWAP);
    change(&r->image, SLOT_USE, all_lanes, 0);
}

/* As many ties as there can be: a register with itself, in every lane and instruction. */
static void make_all_tied(struct run *r)
{
    make_all_swaps(r);
    r->list.word[F_VC] = r->list.word[F_VD] = below(12);
    r->list.word[F_MOD] = 1 + below(15);
}

/* As many stores as there can be: to two registers and their index registers, in every lane and instruction. */
static void make_all_stored(struct run *r)
{
    make_all_swaps(r);
    r->list.word[F_VC] %= 4, r->list.word[F_VD] = (r->list.word[F_VC] + 1 + below(3)) % 4;
    r->list.word[F_MOD] = 0;
    change(&r->image, SLOT_CONFIG, all_lanes, 4);
}

/* The longest list, given whole and mostly refused for its last instruction. It takes many bytes, so of 4,000 cases one has it, and none that is stored. */
static bool is_late(uint32_t k, uint32_t turn) { return k % 4000 == turn; }

static void make_late_list(struct list *l)
{
    make_list(l, MOST, MOST);
    damage_one(l->word + 6 * (MOST - 1));
}

static void make_late_run(void)
{
    static struct run r;
    r.image_len = IMAGE_WORDS, r.dst_len = DST_CELLS;
    make_settings(r.settings);
    make_late_list(&r.list);
    make_image(&r.image);
    put_run(&r);
}

/* Runs that have something to count, or the most, where it is given how. Some are refused for their last instruction, so that there is something to count before it. */
static void make_counted_run(void list(struct list *, uint32_t, uint32_t), void image(struct image *), void most(struct run *))
{
    static struct run r;
    uint32_t count = run_count(), t;
    r.image_len = IMAGE_WORDS, r.dst_len = DST_CELLS;
    make_settings(r.settings);
    list(&r.list, count, 1 + below(6));
    image(&r.image);
    t = below(16);
    if (most != NULL) most(&r);
    else if (t < 3) damage_run(&r);
    else if (t < 5 && r.list.given > 0) damage_insn(r.list.word + 6 * (r.list.given - 1), 1);
    put_run(&r);
}

/* Lanes */

static uint32_t cell(void)
{
    uint32_t d = draw();
    return below(4) == 0 ? cells[d % 16] : d;
}

/* The settings that a lane's instruction can see: edition and srcb. */
static void make_lane_settings(uint32_t settings[8])
{
    memset(settings, 0, 8 * sizeof *settings);
    for (int i = 0; i < 2; i++) settings[i] = 1 + below(2);
    if (below(8) == 0) {
        uint32_t i = 2 + below(6);
        settings[i] = below(1024);
    }
}

/* Every op, and an unknown one, with every mod up to 16, refused in turn: by its mod or, where that is allowed, by a field. */
static void make_refused_mod(uint32_t insn[6], uint32_t j)
{
    uint32_t op = 1 + j % OPS;
    make_op(insn, ind_op_known(op) ? op : NOP);
    insn[F_OP] = op;
    insn[F_MOD] = j / OPS % 17;
    if (ind_insn_fault(insn) != 0) return;
    uint32_t f = below(4);
    insn[F_IMM + f] = limits[op][f] + (below(2) == 0 ? 0 : draw());
}

/* Every op with each of its fields, refused in turn: by the first number out of range, and next time by another. */
static void make_refused_field(uint32_t insn[6], uint32_t j)
{
    uint32_t op = 1 + j % (OPS - 1), turn = j / (OPS - 1), f = turn % 4;
    make_op(insn, op);
    insn[F_IMM + f] = limits[op][f] + (turn / 4 % 2 == 0 ? 0 : draw());
}

static void make_lane(uint32_t k)
{
    uint32_t settings[8], insn[6], lane = below(32), head = below(2) == 0 ? lane % 8 : below(32), v;
    struct image image;
    make_lane_settings(settings);
    if (k % 10 == 0) make_refused_mod(insn, k / 10);
    else if (k % 10 == 5) make_refused_field(insn, k / 10);
    else make_insn(insn);
    make_image(&image);
    for (int n = k % 5 == 0 ? 0 : damages(); n > 0; n--) {
        switch (below(8)) {
        case 0: damage_setting(settings); break;
        case 1: lane = 32 + (below(2) == 0 ? 0 : draw()); break;
        case 2:
            damage_image(&image);
            v = image.change[image.changes - 1][0];
            image.change[image.changes - 1][0] = v - v % LANES + (below(2) == 0 ? lane : head) % LANES;
            break;
        default: damage_insn(insn, 1);
        }
    }
    put(LANE_CASE);
    put_all(settings, 8);
    put_all(insn, 6);
    put_image(&image);
    put(lane);
    put(head);
    put(cell());
    put(cell());
}

/* Writings */

static size_t bytes_needed(const struct list *l)
{
    size_t needed = 114;
    for (size_t i = 0; i < l->len / 6; i++) {
        uint32_t op = l->given > 0 ? l->word[6 * (i % l->given)] : 0;
        needed += 39 + (ind_op_known(op) ? strlen(ind_names[op]) : 3);
    }
    return needed;
}

static void put_writing(const uint32_t settings[8], const struct list *l, size_t room)
{
    put(WRITING_CASE);
    put_all(settings, 8);
    put_list(l);
    put((uint32_t)l->len);
    put((uint32_t)room);
}

static uint32_t writing_count(void)
{
    static const uint32_t long_ones[4] = { OLD_MOST, OLD_MOST + 1, MOST, MOST };
    uint32_t t = below(32), v = below(4);
    return t < 2 ? long_ones[v] : t == 2 ? 0 : 1 + below(20);
}

static void make_writing(uint32_t k)
{
    uint32_t settings[8], count = writing_count(), r, v;
    static struct list list;
    make_settings(settings);
    uint32_t most = 1 + below(6);
    make_list(&list, count, most);
    if (is_late(k, 3997)) {
        make_late_list(&list);
    } else if (below(2) == 0) {
        uint32_t kind = below(8);
        if (kind < 2) damage_setting(settings);
        else if (kind == 2) damage_length(&list);
        else if (kind == 3) damage_too_many(&list);
        else damage_insn(list.word, list.given);
    }
    r = below(16), v = below(64);
    size_t needed = bytes_needed(&list);
    put_writing(settings, &list, r < 2 ? needed - 1 : r < 4 ? needed : r == 4 ? v : needed + v);
}

/* Readings: a text is written and so kept, and each reading is of that text with damage, or of the old listing of the same list. */

/* What a listing has before the nine lines of document 01, and its count's digits and limit: an old one, and format 2. */
struct form {
    uint32_t before, digits, limit;
};
static const struct form old_form = { 0, 4, OLD_MOST }, new_form = { 1, 5, MOST };

struct text {
    uint8_t byte[ROOM_TEXT];
    size_t len, count;              /* count: instructions that it had before any damage */
    const struct form *form;        /* before any damage too */
};

static struct text base;

/* Few groups are long: of the two limits, and one more than the old one. */
static uint32_t base_count(uint32_t group)
{
    uint32_t t = below(24), v = below(2 * OLD_MOST);
    switch (group % 32) {
    case 5:  return MOST;
    case 13: return OLD_MOST;
    case 21: return OLD_MOST + 1;
    }
    return t == 0 ? v : t < 4 ? 0 : 1 + below(6);
}

static void make_base(uint32_t group)
{
    uint32_t settings[8], outcome[5];
    static struct list list;
    base.count = base_count(group);
    base.form = &new_form;
    make_settings(settings);
    make_list(&list, (uint32_t)base.count, base.count > 6 ? 1 : 6);
    for (size_t i = 6 * list.given; i < list.len; i++) list.word[i] = list.word[i - 6 * list.given];
    ind_write(settings, list.word, list.len, base.byte, ROOM_TEXT, outcome);
    base.len = outcome[O_LENGTH];
    put_writing(settings, &list, base.len + below(64));
}

static size_t find_line(const struct text *t, uint32_t m)
{
    size_t at = 0;
    while (m > 0) m -= t->byte[at++] == 10;
    return at;
}

static size_t line_end(const struct text *t, size_t at)
{
    while (t->byte[at] != 10) at++;
    return at + 1;
}

/* The bytes from a up to b give way to the piece. */
static void splice(struct text *t, size_t a, size_t b, const void *piece, size_t len)
{
    memmove(t->byte + a + len, t->byte + b, t->len - b);
    memcpy(t->byte + a, piece, len);
    t->len = t->len - (b - a) + len;
}

static uint32_t lines_of(const struct text *t)
{
    uint32_t lines = 0;
    for (size_t i = 0; i < t->len; i++) lines += t->byte[i] == 10;
    return lines;
}

/* Where count's digits begin, if they are where they should be, else 0. */
static size_t find_count(const struct text *t)
{
    uint32_t m = t->form->before + 8;
    if (lines_of(t) <= m) return 0;
    size_t a = find_line(t, m);
    return line_end(t, a) - a == 7 + t->form->digits ? a + 6 : 0;
}

static void put_count(struct text *t, uint32_t count)
{
    size_t a = find_count(t);
    for (size_t i = t->form->digits; a != 0 && i-- > 0; count /= 10) t->byte[a + i] = (uint8_t)(48 + count % 10);
}

/* The same list in an old listing, with the lower digits of its count. */
static void make_old(struct text *t)
{
    size_t a = find_count(t);
    splice(t, a, a + 1, "", 0);
    splice(t, 0, line_end(t, 0), "", 0);
    t->form = &old_form;
}

static void damage_count(struct text *t)
{
    uint32_t v = below(6), w = below(10000), count = (uint32_t)t->count;
    put_count(t, v == 0 ? count + 1 : v == 1 ? count + 99999 : v == 2 ? t->form->limit + 1 : v == 3 ? t->form->limit : v == 4 ? w * 10 : w);
}

/* One that is there already, once more at the end, and count with it. */
static void add_insn(struct text *t, uint32_t lines)
{
    uint8_t copy[256];
    size_t a = find_line(t, lines - 1), len = line_end(t, a) - a;
    memcpy(copy, t->byte + a, len);
    splice(t, a + len, a + len, copy, len);
    put_count(t, (uint32_t)++t->count);
}

/* Another first line, or one more; format=2 alone; or a digit too many in an old listing's count, or too few in another's. */
static void damage_form(struct text *t)
{
    const bool old = t->form == &old_form;
    uint32_t v = below(24);
    if (v < 16) {
        splice(t, 0, old ? 0 : line_end(t, 0), first_lines[v], strlen(first_lines[v]));
    } else if (v < 19) {
        splice(t, 0, t->len, "format=2\n", v == 16 ? 8 : 9);
    } else {
        size_t a = find_count(t);
        if (a != 0) splice(t, a, old ? a : a + 1, "0", old ? 1 : 0);
    }
}

/* Whether more damage may follow: what is padded with LFs stays so, since they come by the text's length. */
static bool damage_text(struct text *t)
{
    const uint32_t kind = below(24), lines = lines_of(t), head = 9 + t->form->before;
    uint32_t v, w;
    if (lines == 0) return true;

    uint32_t h = below(2), m = h == 0 ? below(lines < head ? lines : head) : below(lines);
    size_t a = find_line(t, m), b = line_end(t, a), p = a + below((uint32_t)(b - a));
    uint8_t copy[256], copy2[256];
    memcpy(copy, t->byte + a, b - a);

    switch (kind) {
    case 0: t->byte[p] = (uint8_t)below(256); break;
    case 1: t->byte[p] = likely[below(16)]; break;
    case 2: t->len = p; break;
    case 3: t->len = find_line(t, lines) - 1; break;
    case 4: t->byte[t->len++] = likely[below(16)]; break;
    case 5: splice(t, t->len, t->len, copy, b - a); break;
    case 6: splice(t, b - 1, b - 1, "\r", 1); break;
    case 7: case 8: case 9:
        v = below(12);
        while (p < t->len && (t->byte[p] < 48 || t->byte[p] > 57)) p++;
        if (p < t->len) t->byte[p] = (uint8_t)(v == 11 ? 47 : 48 + v);
        break;
    case 10: case 11: damage_count(t); break;
    case 12: case 13: {
        v = 1 + below(OPS - 1 + 6);
        if (lines <= head) break;
        const char *name = v < OPS ? ind_names[v] : odd_names[v - OPS];
        a = find_line(t, head + below(lines - head));
        if (line_end(t, a) - a < 4 || memcmp(t->byte + a, "op=", 3) != 0) break;
        for (b = a + 3; t->byte[b] != 32 && t->byte[b] != 10;) b++;
        splice(t, a + 3, b, name, strlen(name));
        break;
    }
    case 14: {
        /* The later line first, so that the place of the earlier one stands. */
        uint32_t o = below(lines);
        size_t oa = find_line(t, o), ob = line_end(t, oa);
        memcpy(copy2, t->byte + oa, ob - oa);
        if (o > m) {
            splice(t, oa, ob, copy, b - a);
            splice(t, a, b, copy2, ob - oa);
        } else if (o < m) {
            splice(t, a, b, copy2, ob - oa);
            splice(t, oa, ob, copy, b - a);
        }
        break;
    }
    case 15: splice(t, b, b, copy, b - a); break;
    case 16: splice(t, a, b, "", 0); break;
    case 17: {
        static const uint32_t lengths[6] = { 1048576, 1048576, 1048577, 1048577, 65536, 65537 };
        v = below(8), w = below(32);
        w = v < 6 ? lengths[v] : 1048577 + w;
        while (t->len < w) t->byte[t->len++] = 10;
        break;
    }
    case 18: case 19:
        if (lines <= head) break;
        a = find_line(t, head + below(lines - head));
        v = refused_mods[below(4)];
        snprintf((char *)copy, sizeof copy, "op=%s imm=00000 vb=00 vc=00 vd=00 mod=%02" PRIu32 "\n", ind_names[load_or_store()], v);
        splice(t, a, line_end(t, a), copy, strlen((char *)copy));
        break;
    case 20: add_insn(t, lines); break;
    default: damage_form(t);
    }
    return kind != 17;
}

/* The pieces that make one text of another. */

enum { MOST_PIECES = 64 };

/* They are held until their number is known. */
static struct {
    size_t copied, next, count;
    const uint8_t *bytes;
} pieces[MOST_PIECES];
static size_t piece_count;

static void put_pieces(void)
{
    put((uint32_t)piece_count);
    for (size_t i = 0; i < piece_count; i++) {
        put((uint32_t)pieces[i].copied);
        put((uint32_t)pieces[i].next);
        put((uint32_t)pieces[i].count);
        for (size_t j = 0; j < pieces[i].count; j++) put(pieces[i].bytes[j]);
    }
}

enum { ALIKE = 12 };

/* How far on in the two the next ALIKE bytes are the same. */
static bool meet(const uint8_t *a, size_t a_len, const uint8_t *b, size_t b_len, size_t *i, size_t *j)
{
    for (size_t sum = 1; sum < 400; sum++)
        for (*i = 0; *i <= sum; ++*i) {
            *j = sum - *i;
            if (*i + ALIKE <= a_len && *j + ALIKE <= b_len && memcmp(a + *i, b + *j, ALIKE) == 0) return true;
        }
    return false;
}

/* Past a text are LFs, so that those at its end come by its length. */
static size_t without_padding(const struct text *t)
{
    size_t len = t->len;
    while (len > 1 && t->byte[len - 1] == 10 && t->byte[len - 2] == 10) len--;
    return len;
}

static void put_text(const struct text *t)
{
    size_t from = 0, to = 0, copied = 0, passed, fresh, len = without_padding(t);
    piece_count = 0;
    while (from < base.len || to < len) {
        if (from < base.len && to < len && base.byte[from] == t->byte[to]) {
            from++, to++, copied++;
            continue;
        }
        if (piece_count == MOST_PIECES - 1 || !meet(base.byte + from, base.len - from, t->byte + to, len - to, &passed, &fresh)) passed = base.len - from, fresh = len - to;
        from += passed;
        pieces[piece_count].copied = copied;
        pieces[piece_count].next = from;
        pieces[piece_count].count = fresh;
        pieces[piece_count++].bytes = t->byte + to;
        to += fresh, copied = 0;
    }
    put_pieces();
    put((uint32_t)t->len);
}

/* The last listing of the group that was damaged and is in order all the same: it is written again at the group's end. */
static uint32_t again_settings[8];
static struct list again;

static void remember(const struct text *t)
{
    static uint32_t list[ROOM_LIST];
    uint32_t settings[8], outcome[5];
    if (ind_read(t->byte, t->len, list, ROOM_LIST, settings, outcome) != 0 || outcome[O_LENGTH] > 60) return;
    memcpy(again_settings, settings, sizeof settings);
    memcpy(again.word, list, outcome[O_LENGTH] * sizeof *list);
    again.len = outcome[O_LENGTH];
    again.given = again.len / 6;
}

static void make_reading(void)
{
    static struct text t;
    memcpy(t.byte, base.byte, base.len);
    t.len = base.len, t.count = base.count, t.form = base.form;
    uint32_t n = below(8), old = below(3), r, v;
    if (old == 0) make_old(&t);
    for (n = n < 2 ? 0 : n < 5 ? 1 : 2; n > 0 && damage_text(&t); n--) continue;
    remember(&t);
    r = below(t.count > OLD_MOST ? 4 : 16), v = below(16);
    size_t words = 6 * t.count;
    put(READING_CASE);
    put_text(&t);
    put((uint32_t)(r == 2 ? v : r == 0 && words > 0 ? words - 1 : r == 1 ? words : words + v));
}

static void make_again(void) { put_writing(again_settings, &again, bytes_needed(&again)); }

/* Walks: what is lent, and the calls, which are held until their number is known. */

enum { MOST_CALLS = 64, FEW_CALLS = 18 };

static struct call calls[MOST_CALLS];
static uint32_t call_count;

static void call(uint32_t kind, uint32_t a, uint32_t b, uint32_t c, uint32_t d)
{
    if (call_count < MOST_CALLS) calls[call_count++] = (struct call){ kind, { a, b, c, d } };
}

static void put_calls(void)
{
    static const uint8_t numbers[CALLS] = { [CHANGE_STORE] = 3, [CHANGE_IMAGE] = 3, [CHANGE_WALK] = 2, [CHANGE_SETTING] = 2, [CHANGE_LENGTHS] = 4 };
    put(call_count);
    for (uint32_t i = 0; i < call_count; i++) {
        put(calls[i].kind);
        put_all(calls[i].n, calls[i].kind < CALLS ? numbers[calls[i].kind] : 0);
    }
}

struct walk {
    struct run run;                     /* as it is lent at first */
    uint32_t settings[8], list_len;     /* in order, as they are or as they would be without damage */
    uint32_t store_len, walk[2];
    uint32_t at;                        /* where the steps so far lead, if none is refused but by 12 */
};

static const uint32_t *insn_at(const struct walk *w, uint32_t i)
{
    static const uint32_t none[6];
    return w->run.list.given > 0 ? w->run.list.word + 6 * (i % w->run.list.given) : none;
}

/* How many steps there are that way: up to the end of the list or of the store, or to a faulty instruction. */
static uint32_t ahead(const struct walk *w, uint32_t kind)
{
    const uint32_t entries = w->store_len / ENTRY, count = w->list_len / 6, end = count < entries ? count : entries;
    uint32_t to = w->at;
    if (kind == BACK) return to <= end ? to : 0;
    while (to < end && ind_insn_fault(insn_at(w, to)) == 0) to++;
    return to - w->at;
}

static void step(struct walk *w, uint32_t kind)
{
    call(kind, 0, 0, 0, 0);
    if (ahead(w, kind) == 0) return;
    if (kind == FORWARD) w->at++;
    else w->at--;
}

static void steps(struct walk *w, uint32_t kind, uint32_t times)
{
    while (times-- > 0) step(w, kind);
}

/* As many as there are, and at times one more. */
static void burst(struct walk *w, uint32_t kind, uint32_t times)
{
    uint32_t most = ahead(w, kind) + (below(4) == 0);
    steps(w, kind, times < most ? times : most);
}

static uint32_t either(void) { return below(2) == 0 ? FORWARD : BACK; }

/* A step that is to be refused, and so leads nowhere. */
static void refused_step(void) { call(either(), 0, 0, 0, 0); }

static void lend_in_order(const struct walk *w) { call(CHANGE_LENGTHS, IMAGE_WORDS, DST_CELLS, w->list_len, w->store_len); }

static void lend_store(struct walk *w, uint32_t len)
{
    w->store_len = len < ROOM_STORE ? len : ROOM_STORE;
    lend_in_order(w);
}

static void place_walk(struct walk *w, uint32_t at)
{
    w->at = at;
    call(CHANGE_WALK, at, below(1024), 0, 0);
}

/* A length by which every step is refused: a little off, or more than there is. */
static void break_length(struct walk *w)
{
    uint32_t t = below(4), v = below(3), e = 1 + below(5), image_len = IMAGE_WORDS, dst_len = DST_CELLS, list_len = w->list_len;
    if (t == 0) image_len = v == 0 ? 767 : v == 1 ? 769 : 4294967295u;
    else if (t == 1) dst_len = v == 0 ? 16383 : v == 1 ? 16385 : 4294967295u;
    else if (t == 2) list_len = v < 2 ? list_len + e : 4294967295u;
    else list_len = 6 * (MOST + 1);
    call(CHANGE_LENGTHS, image_len, dst_len, list_len, w->store_len);
    refused_step();
    lend_in_order(w);
}

static void break_setting(struct walk *w)
{
    uint32_t i = below(8), v = below(3), d = draw();
    call(CHANGE_SETTING, i, out_of(i < 2 ? 3 : 1024, v, d), 0, 0);
    refused_step();
    call(CHANGE_SETTING, i, w->settings[i], 0, 0);
}

/* The word that an image can't have, and where. */
static struct call ill_formed(void)
{
    struct image i = { 0 };
    damage_image(&i);
    return (struct call){ CHANGE_IMAGE, { i.change[0][0], 1, i.change[0][2], 0 } };
}

static void break_image(void)
{
    struct call c = ill_formed();
    call(c.kind, c.n[0], 1, c.n[2], 0);
    refused_step();
    if (below(4) > 0) call(c.kind, c.n[0], 1, 0, 0);
}

/* A walk past the list's end, or with a cursor that is none. */
static void break_walk(struct walk *w)
{
    uint32_t count = w->list_len / 6, t = below(6), v = below(3), d = draw(), at = w->at, cursor = below(1024);
    if (t < 3) at = t == 0 ? count + 1 : out_of(count + 1, v, d);
    else cursor = out_of(1024, v, d);
    if (t == 5) at = out_of(count, v, d);
    call(CHANGE_WALK, at, cursor, 0, 0);
    refused_step();
    place_walk(w, w->at);
}

/* The store is lent anew, with a word less than a step needs, or just enough; at times it stays so. */
static void lend_other_store(struct walk *w)
{
    uint32_t was = w->store_len, t = below(6), v = below(64), len = ENTRY * w->at, kind;
    if (t < 2 && len > 0) len -= 1, kind = BACK;
    else if (t == 2 && len > 0) len -= len > v ? v + 1 : len, kind = BACK;
    else if (t < 4) kind = BACK;
    else len += t == 4 ? ENTRY - 1 : ENTRY, kind = FORWARD;
    lend_store(w, len);
    step(w, kind);
    if (below(3) == 0) step(w, either());
    if (below(4) > 0) lend_store(w, was);
}

/* The list is lent anew, longer or shorter, at times by an instruction that is done already; and mostly it stays so. */
static void lend_other_list(struct walk *w)
{
    uint32_t was = w->list_len, count = was / 6, t = below(4), v = below(13);
    count = t == 0 ? count + 1 : t == 1 && w->at > 0 && w->at < MOST ? w->at - 1 : t == 2 ? w->at % MOST : v;
    w->list_len = 6 * (count < MOST ? count : MOST);
    lend_in_order(w);
    step(w, either());
    if (t != 1) return;
    step(w, BACK);
    w->list_len = was;
    lend_in_order(w);
}

/* The last entry, mostly a STORE's, is damaged and then gone back over. What that brings may be put right; else every step after it is refused. */
static void break_entry(struct walk *w)
{
    for (uint32_t n = 1 + below(4); n > 0 && (w->at == 0 || insn_at(w, w->at - 1)[F_OP] != STORE); n--) step(w, FORWARD);
    if (w->at == 0 || w->at > ROOM_STORE / ENTRY) return;
    uint32_t t = below(10), first = below(LANES), count = 1 + below(LANES), v = below(4), d = word(), place, n = 1, now;
    struct call c = ill_formed();
    if (insn_at(w, w->at - 1)[F_OP] == STORE && below(3) > 0) t = 2 + 5 * below(2);     /* other cells are brought back */
    switch (t) {
    case 0:  place = E_CELLS + first, n = count < LANES - first ? count : LANES - first, now = v == 0 ? d : d % 65536; break;
    case 1:  place = E_CELLS, n = LANES, now = d; break;
    case 2:  place = E_ADDRESS, now = v == 0 ? d : v == 1 ? 1024 + d % 1024 : d % 1024; break;
    case 3:  place = E_CURSOR, now = d % 1024; break;
    case 4:  place = E_CURSOR, now = out_of(1024, v, d % 65536); break;
    case 5:  place = LANES * (d % 8) + first, now = d; break;
    case 6:  place = c.n[0], now = c.n[2]; break;
    default: place = LANES * SLOT_CONFIG + first % 8, n = 8 - first % 8, now = v == 0 ? d % 262144 : v == 1 ? 0 : 32;
    }
    call(CHANGE_STORE, ENTRY * (w->at - 1) + place, n, now, 0);
    step(w, BACK);
    if (below(2) == 0) step(w, either());
    if (t == 4) place_walk(w, w->at);
    if (t == 6 && below(2) == 0) call(CHANGE_IMAGE, place, n, 0, 0);
}

/* To an entry that may never have been kept, whose image is none, nor its cursor. If there is a faulty instruction, it may be that one's. */
static void jump(struct walk *w)
{
    uint32_t count = w->list_len / 6, at = 1 + below(count + 1), t = below(4), place;
    if (ind_list_fault(w->run.list.word, w->run.list.given, &place) != 0 && place < count && below(2) == 0) at = place + 1;
    place_walk(w, at);
    step(w, t == 0 ? FORWARD : BACK);
    if (t < 2) return;
    for (uint32_t slot = SLOT_CONFIG; slot < SLOTS; slot++)
        if (!ind_slot_good(slot, UNWRITTEN)) call(CHANGE_IMAGE, LANES * slot, LANES, 0, 0);
    place_walk(w, w->at);
}

/* Something that is in order: a setting, registers, LaneConfig, the walk's cursor, or words of the store that are free, to its end at times. */
static void change_lent(struct walk *w)
{
    uint32_t t = below(5), i = below(8), v = below(1024), d = word();
    struct lanes lanes = some_lanes();
    if (t == 0) {
        w->settings[i] = i < 2 ? 1 + v % 2 : v;
        call(CHANGE_SETTING, i + 8 * (d % 3), w->settings[i], 0, 0);
    } else if (t == 1) {
        call(CHANGE_IMAGE, LANES * i + lanes.first, lanes.count, d, 0);
    } else if (t == 2) {
        call(CHANGE_IMAGE, LANES * SLOT_CONFIG + lanes.first, lanes.count, i < 4 ? 32 : d % 262144, 0);
    } else if (t == 3) {
        place_walk(w, w->at);
    } else if (w->at <= ROOM_STORE / ENTRY) {
        call(CHANGE_STORE, ENTRY * w->at + v, i == 0 ? 4294967295u : 1 + d % 1024, d, 0);
    }
}

/* Each of 1 to 6 where those after it would be given too: all that is wrong is put right in turn. */
static void break_all(struct walk *w)
{
    uint32_t kind = either(), i = below(9), v = below(3), d = draw(), cursor = below(1024);
    struct call c = ill_formed();
    call(c.kind, c.n[0], 1, c.n[2], 0);
    if (i < 8) call(CHANGE_SETTING, i, out_of(i < 2 ? 3 : 1024, v, d), 0, 0);
    else call(CHANGE_WALK, w->at, out_of(1024, v, d), 0, 0);
    for (int right = 0; right < 3; right++) {
        call(CHANGE_LENGTHS, right < 1 ? 767 : IMAGE_WORDS, right < 2 ? 16383 : DST_CELLS, 6 * (MOST + 1) + 1, w->store_len);
        call(kind, 0, 0, 0, 0);
    }
    if (i < 8) call(CHANGE_SETTING, i, w->settings[i], 0, 0);
    else call(CHANGE_WALK, w->at, cursor, 0, 0);
    call(kind, 0, 0, 0, 0);
    call(CHANGE_LENGTHS, IMAGE_WORDS, DST_CELLS, 6 * (MOST + 1), w->store_len);
    call(kind, 0, 0, 0, 0);
    lend_in_order(w);
    call(kind, 0, 0, 0, 0);
    call(c.kind, c.n[0], 1, 0, 0);
    step(w, kind);
}

/* What a host may do between two steps. */
static void meddle(struct walk *w)
{
    switch (below(24)) {
    case 0:  break_length(w); break;
    case 1:  break_setting(w); break;
    case 2:  break_image(); break;
    case 3:  break_walk(w); break;
    case 4:  case 5: case 6: lend_other_store(w); break;
    case 7:  case 8: lend_other_list(w); break;
    case 9:  case 10: jump(w); break;
    case 11: call(below(2) == 0 ? 0 : CALLS + below(300), 0, 0, 0, 0); break;
    case 12: case 13: change_lent(w); break;
    default: break_entry(w);
    }
}

/* Bursts of steps: forwards, some of them back, and on. At times to one of the ends at last. */
static void wander(struct walk *w, uint32_t end, bool meddled)
{
    uint32_t t = below(4);
    while (call_count < end) {
        uint32_t on = 1 + below(6);
        burst(w, FORWARD, on);
        if (meddled && below(2) == 0) meddle(w);
        burst(w, BACK, below(on + 2));
        if (meddled && below(4) == 0) meddle(w);
        /* where no step is possible */
        if (ahead(w, FORWARD) + ahead(w, BACK) == 0) refused_step();
    }
    if (t == 0) burst(w, FORWARD, 12);
    else if (t == 1) burst(w, BACK, 12);
}

/* To the end and one more, back to the start and one more, and at times on again into the room that is free again. */
static void there_and_back(struct walk *w)
{
    steps(w, FORWARD, ahead(w, FORWARD) + 1);
    if (below(8) == 0) meddle(w);
    if (w->run.list.given > w->list_len / 6 && below(2) == 0) {
        w->list_len += 6;
        lend_in_order(w);
        steps(w, FORWARD, 2);
    }
    steps(w, BACK, ahead(w, BACK) + 1);
    if (below(2) == 0) steps(w, FORWARD, 1 + below(3));
}

/* STOREs, many to the same few cells, and what makes them differ: words, flags, LaneConfig. */
static void make_store_list(struct list *l, uint32_t count, uint32_t most)
{
    uint32_t near = below(1024), t;
    make_list(l, count, most);
    for (size_t i = 0; i < l->given; i++) {
        uint32_t *insn = l->word + 6 * i;
        t = below(8);
        if (t < 5) make_op(insn, t == 4 ? LOAD : STORE);
        if (t < 5 && below(2) == 0) insn[F_IMM] = (near + below(4)) % 1024;
        if (t != 5) continue;
        make_op(insn, CONFIG);
        insn[F_IMM] = insn[F_MOD] & 8 ? insn[F_IMM] : 32;
        insn[F_VD] = 15;
    }
}

/* Columns exchanged in some lanes, of row 0 or not, and lanes not enabled. */
static void make_walk_image(struct image *i)
{
    make_image(i);
    if (below(3) == 0) {
        uint32_t w = below(2) == 0 ? 32 : 0;
        change(i, SLOT_CONFIG, some_lanes(), w);
    }
    if (below(3) == 0) {
        struct lanes lanes = some_lanes();
        change(i, SLOT_FLAG, lanes, 0);
        change(i, SLOT_USE, lanes, 1);
    }
}

static uint32_t walk_count(uint32_t k)
{
    uint32_t t = below(32);
    if (k % 32 == 9) return MOST;
    if (t == 0) return 0;
    if (t == 1) return 41 + below(2 * OLD_MOST);
    return 1 + below(t < 8 ? 3 : 10);
}

/* Room for every step, or for some, or for all but a word of them, or more than there is. */
static uint32_t store_words(uint32_t count)
{
    uint32_t t = below(16), v = below(10), entries = count < 40 ? count : 40, some = below(entries + 1);
    switch (t) {
    case 0:  return v;
    case 1:  return ENTRY * some + v;
    case 2:  return ENTRY * some;
    case 3:  return ENTRY * some + ENTRY - 1;
    case 4:  return ENTRY * entries + ENTRY - 1;
    case 5:  return entries > 0 ? ENTRY * entries - 1 : v;
    case 6:  return v == 0 ? 4294967295u : ENTRY * entries + ENTRY;
    default: return ENTRY * entries + (t < 10 ? v : 0);
    }
}

static void make_lent(struct walk *w, uint32_t count)
{
    struct run *r = &w->run;
    uint32_t t = below(8), most = count > 40 ? 6 : 12;
    r->image_len = IMAGE_WORDS, r->dst_len = DST_CELLS;
    make_settings(r->settings);
    if (t < 4) make_store_list(&r->list, count, most);
    else if (t == 4) make_tie_list(&r->list, count, most);
    else make_list(&r->list, count, most);
    /* Small strides keep STOREs together. */
    for (int i = S_STRIDE0; t < 3 && i < 8; i++) r->settings[i] = below(4);
    if (t == 4) make_tie_image(&r->image);
    else make_walk_image(&r->image);
    if (r->list.given >= 2 && below(8) == 0) make_pair(r->settings, r->list.word + 6 * below((uint32_t)r->list.given - 1));
    /* One more than the list's length has, and mostly faulty: a host may lend it later. */
    if (count <= 10 && below(6) == 0) {
        uint32_t *more = r->list.word + 6 * r->list.given++;
        make_insn(more);
        damage_one(more);
    }
    w->store_len = store_words(count);
    w->list_len = (uint32_t)r->list.len;
    memcpy(w->settings, r->settings, sizeof w->settings);
}

/* The walk before it begins, which is what it stays if it can't begin. */
static void make_walk_words(struct walk *w)
{
    uint32_t t = below(8), v = below(3), d = draw(), count = w->list_len / 6;
    w->walk[W_AT] = t < 6 ? 0 : t == 6 ? below(count + 2) : out_of(count, v, d);
    w->walk[W_CURSOR] = below(1024);
    if (t == 5) w->walk[W_CURSOR] = out_of(1024, v, d);
}

/* What was lent out of order is put right, but for instructions. */
static void mend(struct walk *w, uint32_t changes)
{
    const struct run *r = &w->run;
    if (r->image_len != IMAGE_WORDS || r->dst_len != DST_CELLS || r->list.len != w->list_len) lend_in_order(w);
    for (uint32_t i = 0; i < 8; i++)
        if (r->settings[i] != w->settings[i]) call(CHANGE_SETTING, i, w->settings[i], 0, 0);
    for (; changes < r->image.changes; changes++) call(CHANGE_IMAGE, r->image.change[changes][0], 1, 0, 0);
    if (w->walk[W_CURSOR] > 1023) place_walk(w, 0);
}

static void make_walk(uint32_t k)
{
    static struct walk w;
    const bool full = k % 64 == 63;         /* these fill a store of the most words */
    uint32_t count = full ? 41 + below(3) : walk_count(k), changes, first_store, t;
    int damaged = full ? 0 : damages();
    call_count = 0;
    make_lent(&w, count);
    if (is_late(k, 3999)) make_late_list(&w.run.list), w.list_len = 6 * MOST;
    if (full) w.store_len = ENTRY * 40 + below(11);
    make_walk_words(&w);
    changes = w.run.image.changes, first_store = w.store_len, w.at = 0;
    for (int n = damaged; n > 0; n--) {
        if (w.run.list.given > 0 && below(4) == 0) damage_one(w.run.list.word + 6 * below((uint32_t)w.run.list.given));
        else damage_run(&w.run);
    }
    if (damaged > 0) w.at = w.walk[W_AT];
    if (damaged > 0 && below(4) > 0) mend(&w, changes);
    t = below(8);
    if (damaged > 0 && below(2) == 0) jump(&w);
    if (full) steps(&w, FORWARD, 41), steps(&w, BACK, 1 + below(3)), steps(&w, FORWARD, 5);
    else if (t == 0) break_all(&w), wander(&w, FEW_CALLS, false);
    else if (t < 3 && count <= 10) there_and_back(&w);
    else wander(&w, 2 + below(FEW_CALLS), t < 6);
    put(WALK_CASE);
    put_lent(&w.run);
    put(first_store);
    put_all(w.walk, 2);
    put_calls();
}

/* All of them. */

void ind_cases(uint32_t seed, uint32_t runs, uint32_t lanes, uint32_t listings, uint32_t walks, FILE *to)
{
    out = to;
    for (uint32_t k = 0; k < runs; k++) {
        start(seed, k, 4);
        /* of 4 runs one is for ties, and one for stores to registers */
        if (is_late(k, 3999)) make_late_run();
        else if (k % 4 == 3) make_counted_run(make_tie_list, make_tie_image, k % 512 == 511 ? make_all_tied : NULL);
        else if (k % 4 == 1) make_counted_run(make_storing_list, make_storing_image, k % 1024 == 509 ? make_all_stored : NULL);
        else make_run();
    }
    for (uint32_t k = 0; k < lanes; k++) {
        start(seed, k, 8);
        make_lane(k);
    }
    for (uint32_t k = 0; k < listings; k++) {
        start(seed, k, 12);
        /* of 25 listings one is written, 20 are read as it is or damaged, one of these is written again, and 3 are others */
        if (k % 25 == 0) make_base(k / 25);
        else if (k % 25 < 21) make_reading();
        else if (k % 25 == 21) make_again();
        else make_writing(k);
    }
    for (uint32_t k = 0; k < walks; k++) {
        start(seed, k, 16);
        make_walk(k);
    }
}
