/* Document 01's examples and the readings it warns of, and what document 02 changes, one assertion each; all by way of the calls that a host has. */
#include "independent.h"

#include <inttypes.h>
#include <stdlib.h>
#include <string.h>

static int failures;

static void check(bool good, const char *what, int line)
{
    if (good) return;
    fprintf(stderr, "selftest.c:%d: %s\n", line, what);
    failures++;
}
#define CHECK(condition) check((condition), #condition, __LINE__)

/* One lane: the words are set up by hand, `act` does one instruction in them. */

static uint32_t settings[8], own[SLOTS], head[SLOTS];
static uint16_t cells[2];
static uint32_t lane;

static void fresh(void)
{
    static const uint32_t plain[8] = { 1, 2, 0, 0, 0, 0, 0, 0 };
    memcpy(settings, plain, sizeof plain);
    memset(own, 0, sizeof own);
    memset(head, 0, sizeof head);
    memset(cells, 0, sizeof cells);
    lane = 0;
}

static uint32_t act(uint32_t op, uint32_t imm, uint32_t vb, uint32_t vc, uint32_t vd, uint32_t mod)
{
    const uint32_t insn[6] = { op, imm, vb, vc, vd, mod };
    return ind_lane(settings, lane, insn, own, head, cells);
}

/* "c ranks below d", seen from outside: with the minimum wanted in vd, the swap happens exactly then. */
static bool ranks_below(uint32_t c, uint32_t d)
{
    fresh();
    own[0] = c, own[1] = d, own[SLOT_CONFIG] = 1 << 2, own[4] = 1, own[5] = 2;
    CHECK(act(SWAP, 0, 0, 0, 1, 1) == 0);
    return own[4] == 2;
}

/* Document 002's own comparison, to set beside document 01's sentence. */
static bool sign_mag_is_smaller(uint32_t c, uint32_t d)
{
    if (c >> 31) c ^= 0x7FFFFFFF;
    if (d >> 31) d ^= 0x7FFFFFFF;
    return (c ^ 0x80000000) < (d ^ 0x80000000);
}

static uint32_t lut_byte(uint32_t byte)
{
    fresh();
    own[0] = 0xFF00 | byte;                 /* slope +0, so that the sum is the intercept */
    CHECK(act(LUT, 0, 0, 0, 4, 0) == 0);
    return own[4];
}

static uint32_t lut(uint32_t r3, uint32_t coeffs, uint32_t mod)
{
    fresh();
    own[0] = own[1] = own[2] = coeffs, own[3] = r3, own[7] = 4;
    CHECK(act(LUT, 0, 0, 0, 4, mod) == 0);
    return own[4];
}

static uint32_t load(uint16_t cell, uint32_t mod, uint32_t config)
{
    fresh();
    cells[0] = cell, own[SLOT_CONFIG] = config, own[0] = 0x12345678;
    CHECK(act(LOAD, 0, 0, 0, 0, mod) == 0);
    return own[0];
}

static void the_twelve(void)
{
    CHECK(ranks_below(0x80000000, 0));                                              /* K1 */
    CHECK(!ranks_below(0, 0));                                                      /* K2 */
    CHECK(ranks_below(0xFFFFFFFF, 0xFF800000));                                     /* K3 */
    CHECK(lut_byte(0x7F) == 0x3C780000);                                            /* K4 */
    CHECK(lut_byte(0xFF) == 0);                                                     /* K5 */
    CHECK(lut_byte(0xF0) == 0xBC000000);                                            /* K6 */
    CHECK(load(0x80A0, 13, 0) == 0xFFFFFFFB);                                       /* K7: the cell is -5 */
    CHECK(load(0x8000, 13, 0) == 0);                                                /* K8 */
    CHECK(load(0x7FFF, 1, 1) == 0x7F800000 && load(0x7FFF, 1, 0) == 0x47FFE000);    /* K9 */
    CHECK(load(0x007F, 2, 0) == 0x3F800000);                                        /* K10 */
    fresh();
    CHECK(act(IADD, 4095, 0, 0, 0, 1) == 0 && own[0] == 0xFFFFFFFF && own[SLOT_FLAG] == 1); /* K11 */
    fresh();
    own[SLOT_CONFIG] = 0x30004;
    CHECK(act(CONFIG, 256, 0, 0, 15, 5) == 0 && own[SLOT_CONFIG] == 0x30000);       /* K12 */
}

static void order(void)
{
    static const uint32_t words[] = { 0, 1, 0x7F800000, 0x7FFFFFFF, 0x80000000, 0x80000001, 0xFF800000, 0xFFFFFFFF, 0x3F800000, 0xBF800000 };
    for (size_t i = 0; i < sizeof words / sizeof *words; i++)
        for (size_t j = 0; j < sizeof words / sizeof *words; j++)
            CHECK(ranks_below(words[i], words[j]) == sign_mag_is_smaller(words[i], words[j]));
}

static void tempting(void)
{
    /* Xor in CONFIG is 2 and 4 together; bit 3 alone is a lane mask. */
    fresh();
    own[SLOT_MISC] = 0xF0F;
    CHECK(act(CONFIG, 0x0FF, 0, 0, 8, 7) == 0 && own[SLOT_MISC] == 0xFF0);
    CHECK(act(CONFIG, 0x0FF, 0, 0, 8, 9) == 0 && own[SLOT_MISC] == 0x0FF);
    CHECK(act(CONFIG, 0x0FE, 0, 0, 8, 9) == 0 && own[SLOT_MISC] == 0x0FF);

    /* Equal operands swap where the maximum is wanted and bit 8 is clear, and the index registers move. */
    fresh();
    own[SLOT_CONFIG] = 1 << 2, own[0] = own[1] = 5, own[4] = 1, own[5] = 2;
    CHECK(act(SWAP, 0, 0, 0, 1, 9) == 0 && own[4] == 2 && own[5] == 1);
    own[SLOT_CONFIG] |= 1 << 8;
    CHECK(act(SWAP, 0, 0, 0, 1, 9) == 0 && own[4] == 2 && own[5] == 1);
    CHECK(act(SWAP, 0, 0, 0, 1, 1) == 0 && own[4] == 1 && own[5] == 2);
    CHECK(act(SWAP, 0, 0, 0, 1, 0) == 0 && own[4] == 2 && own[5] == 1);     /* bit 8 never reverses mod 0 */

    /* A swap need not permute. vc 1 and vd 5 name the same index register, 5, which so keeps its word. */
    fresh();
    own[SLOT_CONFIG] = 1 << 2, own[1] = 11, own[5] = 55;
    CHECK(act(SWAP, 0, 0, 1, 5, 0) == 0 && own[1] == 55 && own[5] == 55);

    /* LUT with mod 8 and vd 12 does nothing unless bit 4 is set. */
    fresh();
    own[0] = 0xFF80, own[7] = 2;
    CHECK(act(LUT, 0, 0, 0, 12, 8) == 0 && own[2] == 0);
    own[SLOT_CONFIG] = 1 << 4;
    CHECK(act(LUT, 0, 0, 0, 12, 8) == 0 && own[2] == 0xBF800000);
}

/* The whole word of a register that is not stored, copied out by OR. */
static uint32_t copied(uint32_t reg, uint32_t edition, uint32_t in_lane)
{
    fresh();
    settings[0] = edition, lane = in_lane;
    CHECK(act(OR, 0, reg, reg, 0, 1) == 0);
    return own[0];
}

static void constants(void)
{
    for (uint32_t edition = 1; edition <= 2; edition++) {
        for (uint32_t l = 0; l < LANES; l++) {
            CHECK(copied(8, edition, l) == 0x3F56594B);
            CHECK(copied(9, edition, l) == 0);
            CHECK(copied(10, edition, l) == 0x3F800000);
            CHECK(copied(15, edition, l) == 2 * l);
        }
    }
    /* M-100: "the nearest single to 0.8373", as the C compiler finds it by itself. */
    const float nearest = 0.8373f;
    uint32_t word;
    memcpy(&word, &nearest, sizeof word);
    CHECK(copied(8, 1, 0) == word);
}

static void more_lut(void)
{
    CHECK(lut(0x80000001, 0x80FF, 0) == 0);                 /* a denormal counts as 0; -0 plus +0 is +0 */
    CHECK(lut(0x80000001, 0x80FF, 4) == 0x80000000);        /* the sign is register 3's raw one */
    CHECK(lut(0x00800000, 0xF0FF, 0) == 0x80000000);        /* the product is not flushed, the result is */
    CHECK(lut(0x7F800000, 0xFF80, 0) == 0x7FC00000);        /* infinity times +0 */
    CHECK(lut(0xFF800000, 0xFF80, 4) == 0xFFC00000);        /* the sign is copied onto a NaN too */
    CHECK(lut(0x7F7FFFFF, 0x0F7F, 0) == 0x7F800000);        /* overflow */
    CHECK(lut(0x3F800000, 0x0080, 0) == 0);                 /* 1 minus 1 */
    CHECK(lut(0x3F800000, 0xFFFF0080, 0) == 0);             /* the high half of a coefficient word is ignored */
    CHECK(lut(0x40000000, 0x8F7F, 8) == 0xC0770800);        /* -3.875 + 0.01513671875, the register being register 7's */

    /* Which register serves. */
    static const struct { uint32_t r3, serves; } ranges[] = {
        { 0xBF7FFFFF, 0 }, { 0x3F800000, 1 }, { 0xBFFFFFFF, 1 }, { 0x40000000, 2 }, { 0xFF800000, 2 }, { 0x7F800001, 2 },
    };
    for (size_t i = 0; i < sizeof ranges / sizeof *ranges; i++) {
        fresh();
        own[3] = ranges[i].r3, own[0] = own[1] = own[2] = 0x0080, own[ranges[i].serves] = 0xFFFF;
        CHECK(act(LUT, 0, 0, 0, 4, 0) == 0);
        bool finite = (ranges[i].r3 & 0x7FFFFFFF) < 0x7F800000;
        CHECK(own[4] == (finite ? 0 : 0x7FC00000));
    }
}

static void more_lane(void)
{
    /* LOAD: the index, the column, blocking, halves, the whole magnitude of INT8_COMP. */
    fresh();
    lane = 10, settings[2] = 1000, settings[3] = 1000, cells[0] = 0x1111, cells[1] = 0x2222, own[SLOT_CONFIG] = 0xC;
    CHECK(act(LOAD, 50, 1, 0, 3, 6) == 0 && own[3] == 0x2222 && own[7] == ((2050 % 1024 & ~3u) + 1) * 16 + 5);
    CHECK(act(LOAD, 48, 1, 0, 3, 6) == 0 && own[3] == 0x1111 && own[7] == 1 * 16 + 4);
    head[SLOT_CONFIG] = 1 << 5;
    CHECK(act(LOAD, 48, 1, 0, 3, 6) == 0 && own[3] == 0x2222);
    head[SLOT_CONFIG] = 0, own[SLOT_CONFIG] = 1 << 5;
    CHECK(act(LOAD, 48, 1, 0, 3, 6) == 0 && own[3] == 0x1111);
    own[SLOT_CONFIG] = 0xE, own[7] = 9;
    CHECK(act(LOAD, 50, 1, 0, 3, 11) == 0 && own[3] == 0x1111 && own[7] == 9);
    own[SLOT_CONFIG] = 0xC;
    CHECK(act(LOAD, 50, 1, 0, 3, 11) == 0 && own[3] == 0 && own[7] == 1 * 16 + 5);
    CHECK(load(0xABCD, 14, 0) == 0x1234ABCD && load(0xABCD, 15, 0) == 0xABCD5678);
    CHECK(load(0xFFFF, 13, 0) == 0u - 1023 && load(0xFFFF, 5, 0) == 0x8000007F && load(0xFFFF, 8, 0) == 0x80007FFF);
    CHECK(load(0xFFE0, 1, 0) == 0x807FE000 && load(0x80FF, 0, 0) == 0xFF800000);

    /* Flags: a disabled lane keeps its own, vd 8 up touches none, 8 inverts the old one where none was set. */
    fresh();
    own[SLOT_USE] = 1;
    CHECK(act(IADD, 0, 0, 10, 0, 9) == 0 && own[SLOT_FLAG] == 0 && own[0] == 0);
    own[SLOT_USE] = 0;
    CHECK(act(IADD, 4095, 0, 9, 8, 1) == 0 && own[SLOT_FLAG] == 0);
    CHECK(act(IADD, 0, 0, 9, 0, 12) == 0 && own[SLOT_FLAG] == 1);
    CHECK(act(LZ, 0, 0, 9, 0, 10) == 0 && own[SLOT_FLAG] == 1 && own[0] == 32);
    own[1] = 0x80000000;
    CHECK(act(LZ, 0, 0, 1, 0, 6) == 0 && own[SLOT_FLAG] == 0 && own[0] == 32);
    CHECK(act(EXEXP, 0, 0, 9, 0, 2) == 0 && own[SLOT_FLAG] == 1 && own[0] == 0u - 127);
    CHECK(act(EXEXP, 0, 0, 9, 0, 3) == 0 && own[SLOT_FLAG] == 0 && own[0] == 0);
    CHECK(act(EXEXP, 0, 0, 9, 0, 8) == 0 && own[SLOT_FLAG] == 1);

    /* The others. */
    own[1] = 0x80000000, own[2] = 0xFF800001, own[3] = 0xBF800000;
    CHECK(act(ABS, 0, 0, 1, 0, 0) == 0 && own[0] == 0x80000000);
    CHECK(act(ABS, 0, 0, 2, 0, 1) == 0 && own[0] == 0xFF800001);
    CHECK(act(ABS, 0, 0, 3, 0, 1) == 0 && own[0] == 0x3F800000);
    CHECK(act(EXMAN, 0, 0, 2, 0, 0) == 0 && own[0] == 0x800001);
    CHECK(act(AND, 0, 8, 10, 0, 1) == 0 && own[0] == (0x3F56594B & 0x3F800000));
    lane = 31;
    CHECK(act(NOT, 0, 0, 15, 0, 0) == 0 && own[0] == ~62u);
    CHECK(act(LOADI, 0xABCD, 0, 0, 0, 8) == 0 && own[0] == 0xABCDFFC1);

    /* CONFIG: only row 0's flags count; edition 2's constant. */
    fresh();
    lane = 9, own[SLOT_USE] = 1, settings[0] = 2;
    CHECK(act(CONFIG, 0, 0, 0, 12, 1) == 0 && own[SLOT_R11 + 1] == 0x3B000000);
    head[SLOT_USE] = 1, head[0] = 7;
    CHECK(act(CONFIG, 0, 0, 0, 12, 0) == 0 && own[SLOT_R11 + 1] == 0x3B000000);
    head[SLOT_FLAG] = 1;
    CHECK(act(CONFIG, 5, 0, 0, 0, 1) == 0 && own[SLOT_TEMPLATE] == 7);
    CHECK(act(CONFIG, 5, 0, 0, 7, 1) == 0 && own[SLOT_SEQUENCE + 3] == 5);

    /* Refusals in their order: 3, 6, 7, 8 (also the lane), 9. */
    fresh();
    CHECK(act(LOAD, 0, 0, 0, 0, 12) == 9);
    lane = 32;
    CHECK(act(LOAD, 0, 0, 0, 0, 12) == 8 && act(NOP, 0, 0, 0, 0, 0) == 8 && act(17, 0, 0, 0, 0, 0) == 7 && act(0, 0, 0, 0, 0, 0) == 7);
    head[SLOT_MISC] = 4096;
    CHECK(act(17, 0, 0, 0, 0, 0) == 6);
    settings[7] = 1024;
    CHECK(act(17, 0, 0, 0, 0, 0) == 3);
}

/* STORE (M-101) */

/* The even cell that a register's word becomes; the odd one and the lane's words stay. */
static uint16_t stored(uint32_t reg, uint32_t mod)
{
    uint32_t before[SLOTS];
    memcpy(before, own, sizeof own);
    cells[0] = 0x1111, cells[1] = 0x2222;
    CHECK(act(STORE, 0, 0, 0, reg, mod) == 0 && cells[1] == 0x2222 && memcmp(own, before, sizeof own) == 0);
    return cells[0];
}

static uint16_t store(uint32_t word, uint32_t mod)
{
    fresh();
    own[0] = word;
    return stored(0, mod);
}

/* Which of the two cells is stored to; 2 for neither. */
static int column(uint32_t imm)
{
    cells[0] = cells[1] = 0x1111;
    CHECK(act(STORE, imm, 0, 0, 10, 7) == 0);
    return cells[0] == 0x3F80 ? 0 : cells[1] == 0x3F80 ? 1 : 2;
}

static bool refused_store(uint32_t imm, uint32_t vb, uint32_t vc, uint32_t vd, uint32_t mod)
{
    fresh();
    cells[0] = 0x1111, cells[1] = 0x2222;
    return act(STORE, imm, vb, vc, vd, mod) == 8 && cells[0] == 0x1111 && cells[1] == 0x2222;
}

static void stores(void)
{
    /* Mod 2: sign, then the seven digits, then the exponent. */
    CHECK(store(0x3F800000, 2) == 0x007F && store(0xFFFFFFFF, 2) == 0xFFFF && store(0x80000001, 2) == 0x8000 && store(0x7FC00000, 2) == 0x40FF);
    CHECK(store(0x00800000, 2) == 0x0001 && store(0x807FFFFF, 2) == 0xFF00 && store(0x0001FFFF, 2) == 0x0100 && store(0xBF2CC4C7, 2) == 0xAC7E);
    CHECK(store(0x12345678, 7) == 0x1234 && store(0x12345678, 6) == 0x5678 && store(0x12345678, 9) == 0x5678);

    /* STORE and then LOAD: the word with its low half 0, or its low half; and mod 2 of every cell gives it back. */
    for (uint32_t c = 0; c < 65536; c++) {
        CHECK(load(store(c << 16 | 0xABCD, 2), 2, 0) == c << 16 && load(store(c << 16 | 0xABCD, 7), 7, 0) == c << 16);
        CHECK(load(store(0xABCD0000 | c, 6), 9, 0) == c && load(store(0xABCD0000 | c, 9), 6, 0) == c);
        CHECK(store(load((uint16_t)c, 2, 0), 2) == c);
    }

    /* Every register can be read. */
    fresh();
    lane = 31;
    for (uint32_t s = 0; s < SLOT_CONFIG; s++) own[s] = 0xA0B0C0D0 + s;
    for (uint32_t r = 0; r < 8; r++) CHECK(stored(r, 7) == 0xA0B0 && stored(r, 6) == 0xC0D0 + r);
    for (uint32_t r = 11; r < 15; r++) CHECK(stored(r, 7) == 0xA0B0 && stored(r, 9) == 0xC0D0 + SLOT_R11 + r - 11);
    CHECK(stored(8, 7) == 0x3F56 && stored(8, 6) == 0x594B && stored(8, 2) == 0x567E);
    CHECK(stored(9, 2) == 0 && stored(10, 7) == 0x3F80 && stored(10, 9) == 0 && stored(15, 6) == 62 && stored(15, 2) == 0);

    /* In enabled lanes, blocked for LOAD or not; no index is captured. */
    own[SLOT_CONFIG] = 0xE;
    CHECK(stored(3, 7) == 0xA0B0);
    own[SLOT_USE] = 1;
    CHECK(stored(3, 7) == 0x1111);
    own[SLOT_FLAG] = 1;
    CHECK(stored(3, 7) == 0xA0B0);

    /* The column: by the address or by row 0's lane, never by the lane's own bit 5. */
    fresh();
    lane = 10, settings[2] = 1000, settings[3] = 1000;
    CHECK(column(48) == 0 && column(49) == 0 && column(50) == 1 && column(51) == 1 && column(1023) == 1);
    own[SLOT_CONFIG] = 1 << 5;
    CHECK(column(48) == 0);
    head[SLOT_CONFIG] = 1 << 5;
    CHECK(column(48) == 1 && column(50) == 1);
    own[SLOT_CONFIG] = 0;
    CHECK(column(48) == 1);
    own[SLOT_USE] = 1;
    CHECK(column(48) == 2);

    /* Refused by 8, never by 9. */
    for (uint32_t mod = 0; mod <= 16; mod++)
        if (mod != 2 && mod != 6 && mod != 7 && mod != 9) CHECK(refused_store(0, 0, 0, 0, mod));
    CHECK(refused_store(1024, 0, 0, 0, 2) && refused_store(0, 4, 0, 0, 2) && refused_store(0, 0, 1, 0, 2) && refused_store(0, 0, 0, 16, 2));
    fresh();
    CHECK(act(STORE, 1023, 3, 0, 15, 9) == 0);
    lane = 32;
    CHECK(act(STORE, 1023, 3, 0, 15, 9) == 8);
}

/* Runs */

static uint32_t image[ROOM_IMAGE], list[ROOM_LIST], outcome[RUN_OUTCOME];
static uint16_t dst[ROOM_DST];

static bool is(uint32_t answer, uint32_t steps, uint32_t place, uint32_t cursor)
{
    return outcome[O_ANSWER] == answer && outcome[O_STEPS] == steps && outcome[O_PLACE] == place && outcome[O_CURSOR] == cursor;
}

static void nops(size_t from, size_t to)
{
    for (size_t i = from; i < to; i++) {
        memset(list + 6 * i, 0, 6 * sizeof *list);
        list[6 * i] = NOP;
    }
}

static void runs(void)
{
    fresh();
    memset(image, 0, sizeof image);
    settings[3] = 5000;
    nops(0, 16385);
    image[736] = 4096;
    CHECK(ind_run(settings, image, 767, dst, 16383, list, 98311, outcome) == 1 && is(1, 0, 0, 5000));
    CHECK(ind_run(settings, image, 768, dst, 16383, list, 98311, outcome) == 2 && is(2, 0, 0, 5000));
    CHECK(ind_run(settings, image, 768, dst, 16384, list, 98311, outcome) == 3 && is(3, 0, 0, 5000));
    settings[3] = 5;
    CHECK(ind_run(settings, image, 768, dst, 16384, list, 98311, outcome) == 4 && is(4, 0, 0, 5));
    CHECK(ind_run(settings, image, 768, dst, 16384, list, 98305, outcome) == 4 && is(4, 0, 0, 5));
    CHECK(ind_run(settings, image, 768, dst, 16384, list, 98310, outcome) == 5 && is(5, 0, 0, 5));
    CHECK(ind_run(settings, image, 768, dst, 16384, list, 0, outcome) == 6 && is(6, 0, 0, 5));
    image[736] = 4095;
    CHECK(ind_run(settings, image, 768, dst, 16384, list, 0, outcome) == 0 && is(0, 0, 0, 5));
    CHECK(ind_run(settings, image, 768, dst, 16384, list, 6150, outcome) == 0 && is(0, 1025, 0, 5));
    CHECK(ind_run(settings, image, 768, dst, 16384, list, 98304, outcome) == 0 && is(0, 16384, 0, 5));
    CHECK(ind_run(settings, image, 768, dst, 16384, list, 98310, outcome) == 5 && is(5, 0, 0, 5));
    list[6 * 16383 + F_MOD] = 1;
    CHECK(ind_run(settings, image, 768, dst, 16384, list, 98304, outcome) == 8 && is(8, 0, 16383, 5));
    list[6 * 7 + F_MOD] = 1, list[6 * 8] = 17;
    CHECK(ind_run(settings, image, 768, dst, 16384, list, 98304, outcome) == 8 && is(8, 0, 7, 5));
    list[6 * 7] = 99;
    CHECK(ind_run(settings, image, 768, dst, 16384, list, 98304, outcome) == 7 && is(7, 0, 7, 5));
    list[6 * 7] = LOAD, list[6 * 7 + F_MOD] = 10;
    CHECK(ind_run(settings, image, 768, dst, 16384, list, 98304, outcome) == 9 && is(9, 0, 7, 5));
    list[6 * 7 + F_VC] = 1;
    CHECK(ind_run(settings, image, 768, dst, 16384, list, 98304, outcome) == 8 && is(8, 0, 7, 5));

    /* The cursor moves whatever vd is, and wraps; the next address uses it. */
    nops(0, 3);
    settings[3] = 1000, settings[5] = 30;
    for (int i = 0; i < 2; i++) list[6 * i] = LOAD, list[6 * i + F_VB] = 1, list[6 * i + F_MOD] = 6, list[6 * i + F_VD] = i == 0 ? 15 : 2;
    dst[(1030 % 1024 / 4 * 4 + 3) * 16 + 14 + 1] = 0xBEEF;
    CHECK(ind_run(settings, image, 768, dst, 16384, list, 18, outcome) == 0 && is(0, 3, 0, 1060 - 1024));
    CHECK(image[2 * 32 + 31] == 0xBEEF);
}

static void put_insn(size_t i, uint32_t op, uint32_t imm, uint32_t vb, uint32_t vd, uint32_t mod)
{
    const uint32_t insn[6] = { op, imm, vb, 0, vd, mod };
    memcpy(list + 6 * i, insn, sizeof insn);
}

static size_t cells_changed(const uint16_t *before)
{
    size_t n = 0;
    for (size_t i = 0; i < DST_CELLS; i++) n += dst[i] != before[i];
    return n;
}

static void runs_that_store(void)
{
    static uint32_t image_before[ROOM_IMAGE];
    static uint16_t dst_before[ROOM_DST];
    fresh();
    memset(image, 0, sizeof image);
    for (size_t i = 0; i < ROOM_DST; i++) dst[i] = dst_before[i] = 0x1111;

    /* Twice the lane's number to the last rows' odd columns, and LOAD of the same address; the cursor wraps on the way. */
    settings[S_OFFSET] = 1000, settings[S_CURSOR] = 1000, settings[S_STRIDE0 + 2] = 100;
    image[LANES * SLOT_CONFIG + 9] = 1 << 1, image[LANES * SLOT_USE + 12] = 1;
    put_insn(0, STORE, 46, 2, 15, 6);          /* 46 + 1000 + 1000 = 1022 + 1024 */
    put_insn(1, LOAD, 970, 2, 5, 9);            /* 970 + 1000 + (1100 - 1024) too */
    CHECK(ind_run(settings, image, 768, dst, 16384, list, 12, outcome) == 0 && is(0, 2, 0, 1200 - 1024));
    for (uint32_t l = 0; l < LANES; l++) {
        CHECK(dst[(1020 + l / 8) * 16 + l % 8 * 2 + 1] == (l == 12 ? 0x1111 : 2 * l));
        CHECK(image[LANES * 5 + l] == (l == 9 || l == 12 ? 0 : 2 * l));         /* LOAD is blocked in lane 9 */
    }
    CHECK(cells_changed(dst_before) == 31);

    /* Bit 5 in row 0 of column 3 takes the column's four lanes to the odd cells; in lane 10, of row 1, it does nothing. */
    memcpy(dst, dst_before, sizeof dst);
    memset(image, 0, sizeof image);
    settings[S_OFFSET] = settings[S_CURSOR] = 0;
    image[LANES * SLOT_CONFIG + 3] = image[LANES * SLOT_CONFIG + 10] = 1 << 5;
    put_insn(0, STORE, 9, 0, 10, 2);
    CHECK(ind_run(settings, image, 768, dst, 16384, list, 6, outcome) == 0 && is(0, 1, 0, 0));
    for (uint32_t l = 0; l < LANES; l++) CHECK(dst[(8 + l / 8) * 16 + l % 8 * 2 + (l % 8 == 3)] == 0x007F);
    CHECK(cells_changed(dst_before) == 32);

    /* Refused later in the list: no cell and no word is another. */
    memcpy(dst, dst_before, sizeof dst);
    memcpy(image_before, image, sizeof image);
    put_insn(1, LOADI, 5, 0, 1, 10);
    put_insn(2, STORE, 9, 0, 10, 0);
    CHECK(ind_run(settings, image, 768, dst, 16384, list, 18, outcome) == 8 && is(8, 0, 2, 0) && cells_changed(dst_before) == 0);
    put_insn(2, 17, 0, 0, 0, 0);
    CHECK(ind_run(settings, image, 768, dst, 16384, list, 18, outcome) == 7 && is(7, 0, 2, 0) && cells_changed(dst_before) == 0);
    CHECK(ind_run(settings, image, 768, dst, 16385, list, 6, outcome) == 2 && is(2, 0, 0, 0) && cells_changed(dst_before) == 0);
    CHECK(memcmp(image, image_before, sizeof image) == 0);
}

/* Ties (M-102) */

/* Every lane alike: a word in registers 0 and 1, all lanes enabled, LaneConfig as given. Other words are 0. */
static void alike(uint32_t word, uint32_t config)
{
    fresh();
    memset(image, 0, sizeof image);
    for (unsigned l = 0; l < LANES; l++) image[l] = image[LANES + l] = word, image[LANES * SLOT_CONFIG + l] = config;
}

static void put_swap(size_t i, uint32_t vc, uint32_t vd, uint32_t mod)
{
    put_insn(i, SWAP, 0, 0, vd, mod);
    list[6 * i + F_VC] = vc;
}

/* Runs the first so many instructions. What was in the outcome must not show. */
static uint32_t run(size_t count)
{
    memset(outcome, 0xA5, sizeof outcome);
    return ind_run(settings, image, 768, dst, 16384, list, 6 * count, outcome);
}

/* The counts of columns 0 to 7, which begin at that word: the ties, or the stores to registers. */
static bool counts_are(unsigned first, const uint32_t counts[8]) { return memcmp(outcome + first, counts, 8 * sizeof *counts) == 0; }

static bool are(uint32_t c0, uint32_t c1, uint32_t c2, uint32_t c3, uint32_t c4, uint32_t c5, uint32_t c6, uint32_t c7)
{
    return counts_are(O_TIES, (const uint32_t[8]){ c0, c1, c2, c3, c4, c5, c6, c7 });
}

static bool stores_are(uint32_t c0, uint32_t c1, uint32_t c2, uint32_t c3, uint32_t c4, uint32_t c5, uint32_t c6, uint32_t c7)
{
    return counts_are(O_STORES, (const uint32_t[8]){ c0, c1, c2, c3, c4, c5, c6, c7 });
}

static bool all_are(uint32_t n) { return are(n, n, n, n, n, n, n, n); }
static bool all_store(uint32_t n) { return stores_are(n, n, n, n, n, n, n, n); }

/* The first instruction by itself, from the image as it stands, which is put back. */
static bool runs_alone(void)
{
    static uint32_t kept[ROOM_IMAGE];
    memcpy(kept, image, sizeof image);
    bool good = run(1) == 0 && is(0, 1, 0, 0);
    memcpy(image, kept, sizeof image);
    return good;
}

static bool swap_counts(uint32_t vc, uint32_t vd, uint32_t mod, uint32_t each)
{
    put_swap(0, vc, vd, mod);
    return runs_alone() && all_are(each);
}

enum { BELOW, EQUAL, ABOVE };

/* What the comparison answers, seen from outside: with the minimum wanted in vd the index registers move exactly where vc ranks below it, and a tie is
 * counted exactly where the two are equal. */
static int compared(uint32_t c, uint32_t d)
{
    alike(0, 1 << 2);
    for (unsigned l = 0; l < LANES; l++) image[l] = c, image[LANES + l] = d, image[LANES * 4 + l] = 1, image[LANES * 5 + l] = 2;
    put_swap(0, 0, 1, 1);
    CHECK(run(1) == 0 && (all_are(0) || all_are(4)));
    bool swapped = image[LANES * 4] == 2, tied = outcome[O_TIES] == 4;
    CHECK(!(swapped && tied));
    return swapped ? BELOW : tied ? EQUAL : ABOVE;
}

static void three_answers(void)
{
    /* Rising. */
    static const uint32_t words[] = { 0xFFFFFFFF, 0xFF800001, 0xFF800000, 0xBF800000, 0x80000001, 0x80000000, 0, 1, 0x3F800000, 0x7F800000, 0x7FFFFFFF };
    CHECK(compared(0x80000000, 0) == BELOW && compared(0, 0x80000000) == ABOVE);                        /* K1 */
    CHECK(compared(0, 0) == EQUAL && compared(0x80000000, 0x80000000) == EQUAL);                        /* K2 */
    CHECK(compared(0xFFFFFFFF, 0xFF800000) == BELOW && compared(0xFF800000, 0xFFFFFFFF) == ABOVE);      /* K3 */
    for (size_t i = 0; i < sizeof words / sizeof *words; i++)
        for (size_t j = 0; j < sizeof words / sizeof *words; j++)
            CHECK(compared(words[i], words[j]) == (i < j ? BELOW : i > j ? ABOVE : EQUAL));
}

static void which_lanes_tie(void)
{
    /* Every mod but 0, whatever bits 2 and 8 are, for any word. */
    static const uint32_t words[] = { 0, 5, 0x80000000, 0x7FC00000, 0xFFFFFFFF };
    for (size_t i = 0; i < sizeof words / sizeof *words; i++)
        for (uint32_t config = 0; config < 4; config++) {
            alike(words[i], (config & 1) << 2 | (config & 2) << 7);
            CHECK(swap_counts(0, 1, 0, 0));
            for (uint32_t mod = 1; mod < 16; mod++) CHECK(swap_counts(0, 1, mod, 4) && swap_counts(1, 0, mod, 4));
        }

    /* The two zeros are no tie. */
    alike(0, 0);
    for (unsigned l = 0; l < LANES; l++) image[l] = 0x80000000;
    CHECK(swap_counts(0, 1, 1, 0) && swap_counts(1, 0, 1, 0) && swap_counts(1, 9, 1, 4));

    /* A register with itself. From 12 on it is by bit 4, and for vd alone. */
    for (uint32_t reg = 0; reg < 16; reg++) {
        alike(5, 0);
        CHECK(swap_counts(reg, reg, 9, reg < 12 ? 4 : 0) && swap_counts(reg, reg, 0, 0));
        alike(5, 1 << 4);
        CHECK(swap_counts(reg, reg, 9, 4) && swap_counts(reg, reg, 0, 0));
    }
    for (uint32_t vd = 11; vd < 15; vd++) {
        alike(5, 0);
        for (unsigned l = 0; l < LANES; l++) image[LANES * (SLOT_R11 + vd - 11) + l] = 5;
        CHECK(swap_counts(0, vd, 3, vd == 11 ? 4 : 0) && swap_counts(vd, 0, 3, 4));
        for (unsigned l = 0; l < 16; l++) image[LANES * SLOT_CONFIG + l] = 1 << 4;
        CHECK(swap_counts(0, vd, 3, vd == 11 ? 4 : 2));
    }

    /* Registers that are never stored; twice the lane is 26 in lane 13 and 14 in lane 7. */
    alike(0x3F56594B, 0);
    CHECK(swap_counts(0, 8, 2, 4) && swap_counts(8, 1, 2, 4) && swap_counts(8, 10, 2, 0));
    alike(0x3F800000, 0);
    CHECK(swap_counts(10, 0, 15, 4) && swap_counts(0, 9, 15, 0));
    alike(26, 0);
    put_swap(0, 15, 0, 1);
    CHECK(run(1) == 0 && are(0, 0, 0, 0, 0, 1, 0, 0));
    alike(14, 0);
    put_swap(0, 0, 15, 1);
    CHECK(run(1) == 0 && all_are(0));
    alike(14, 1 << 4);
    CHECK(run(1) == 0 && are(0, 0, 0, 0, 0, 0, 0, 1));

    /* Lanes not enabled: row 1 and, in column 2, row 3 too. Lane 20's LaneFlag enables it. */
    alike(5, 0);
    for (unsigned l = 8; l < 16; l++) image[LANES * SLOT_USE + l] = 1;
    image[LANES * SLOT_USE + 26] = 1;
    image[LANES * SLOT_USE + 20] = image[LANES * SLOT_FLAG + 20] = image[LANES * SLOT_FLAG + 21] = 1;
    put_swap(0, 0, 1, 4);
    CHECK(run(1) == 0 && are(3, 3, 2, 3, 3, 3, 3, 3));

    /* A lane alone, by its column. */
    for (unsigned l = 0; l < LANES; l++) {
        alike(0, 0);
        for (unsigned other = 0; other < LANES; other++) image[other] = other == l ? 0 : 7;
        put_swap(0, 0, 1, 12);
        CHECK(run(1) == 0);
        for (unsigned c = 0; c < 8; c++) CHECK(outcome[O_TIES + c] == (c == l % 8));
    }
    alike(0, 0);
    for (unsigned l = 0; l < LANES; l++) image[l] = 1;
    image[0] = image[9] = image[17] = image[25] = image[18] = image[31] = 0;
    put_swap(0, 1, 0, 6);
    CHECK(run(1) == 0 && are(1, 3, 1, 0, 0, 0, 0, 1));
}

static void ties_over_a_list(void)
{
    /* They add up: all lanes; lane 13 alone, whose 26 is twice its number; mod 0; and no SWAP at all. */
    alike(26, 0);
    put_swap(0, 0, 1, 1), put_swap(1, 15, 0, 9);
    CHECK(run(1) == 0 && all_are(4));
    alike(26, 0);
    CHECK(run(2) == 0 && are(4, 4, 4, 4, 4, 5, 4, 4));
    alike(26, 0);
    put_swap(0, 15, 2, 0), put_swap(1, 0, 1, 1), put_insn(2, NOP, 0, 0, 0, 0), put_swap(3, 1, 0, 2);
    CHECK(run(4) == 0 && is(0, 4, 0, 0) && all_are(8));
    CHECK(run(0) == 0 && all_are(0));
    put_insn(0, XOR, 0, 0, 1, 0);
    CHECK(run(1) == 0 && all_are(0));

    /* The lane as it was before: made equal by the SWAP itself is none, and by an instruction before it is one. */
    alike(7, 0);
    put_swap(0, 0, 9, 9), put_swap(1, 0, 9, 9);                 /* register 0 takes 0, which 9 keeps */
    CHECK(run(1) == 0 && all_are(0) && image[13] == 0);
    alike(7, 0);
    CHECK(run(2) == 0 && all_are(4));
    alike(0, 1 << 2);
    for (unsigned l = 0; l < LANES; l++) image[LANES + l] = 11, image[LANES * 5 + l] = 55;
    put_swap(0, 1, 5, 1);                                       /* register 1 takes 5's word, which 5 keeps */
    CHECK(run(1) == 0 && all_are(0) && image[LANES + 13] == 55 && image[LANES * 5 + 13] == 55);
    alike(5, 1 << 2);
    for (unsigned l = 0; l < LANES; l++) image[LANES * 4 + l] = 5, image[LANES * 5 + l] = 9;
    put_swap(0, 4, 1, 9);                                       /* equal before, and then register 4 takes 5's word */
    CHECK(run(1) == 0 && all_are(4) && image[LANES + 13] == 5 && image[LANES * 4 + 13] == 9);
    alike(0, 0);
    put_insn(0, LOADI, 6, 0, 0, 10), put_swap(1, 0, 1, 1), put_insn(2, LOADI, 0, 0, 1, 10), put_insn(3, LOADI, 0, 0, 0, 10);
    CHECK(run(4) == 0 && all_are(0));                           /* 0 and 6 do not tie, though they end alike */
    put_swap(4, 0, 1, 1);
    alike(0, 0);
    CHECK(run(5) == 0 && all_are(4));

    /* LaneConfig and the flags too: bit 4 comes by CONFIG, to all lanes and to column 2 alone; and IADD takes every lane's flag away. */
    alike(0, 0);
    put_swap(0, 9, 12, 1), put_insn(1, CONFIG, 16, 0, 15, 1), put_swap(2, 9, 12, 1);
    CHECK(run(3) == 0 && all_are(4));
    alike(16, 0);
    put_swap(0, 2, 12, 1), put_insn(1, CONFIG, 1 << 4, 0, 15, 8), put_swap(2, 2, 12, 1);
    CHECK(run(3) == 0 && are(0, 0, 4, 0, 0, 0, 0, 0));
    alike(5, 0);
    for (unsigned l = 0; l < LANES; l++) image[LANES * SLOT_USE + l] = image[LANES * SLOT_FLAG + l] = 1;
    put_swap(0, 0, 1, 1), put_insn(1, IADD, 0, 0, 2, 1), put_swap(2, 0, 1, 1);
    CHECK(run(3) == 0 && all_are(4) && image[LANES * SLOT_FLAG + 13] == 0);

    /* At most 4 an instruction: 16,384 instructions, each with every lane. */
    alike(5, 0);
    for (size_t i = 0; i < MAX_INSNS; i++) put_swap(i, 0, 1, 1 + i % 15);
    CHECK(run(MAX_INSNS) == 0 && is(0, 16384, 0, 0) && all_are(65536));
}

static bool refused(uint32_t answer, uint32_t place) { return is(answer, 0, place, settings[S_CURSOR]) && all_are(0) && all_store(0); }

/* With ties and stores to registers in all lanes before what is refused, which a run must not tell of. */
static void counts_refused(void)
{
    alike(5, 0);
    settings[S_CURSOR] = 6;
    put_swap(0, 0, 1, 1), put_swap(1, 1, 0, 9);                 /* the second swaps */
    put_insn(2, 17, 0, 0, 0, 0);
    CHECK(run(3) == 7 && refused(7, 2));
    put_swap(2, 0, 16, 1);
    CHECK(run(3) == 8 && refused(8, 2));
    put_swap(2, 0, 1, 16);
    CHECK(run(3) == 8 && refused(8, 2));
    put_insn(2, LOAD, 0, 0, 0, 3);
    CHECK(run(3) == 9 && refused(9, 2));
    CHECK(run(16385) == 5 && refused(5, 0));
    image[LANES * SLOT_MISC + 31] = 4096;
    CHECK(run(2) == 6 && refused(6, 0));
    image[LANES * SLOT_MISC + 31] = 0;
    settings[S_CURSOR] = 1024;
    CHECK(run(2) == 3 && refused(3, 0));
    settings[S_CURSOR] = 6;
    memset(outcome, 0xA5, sizeof outcome);
    CHECK(ind_run(settings, image, 767, dst, 16384, list, 12, outcome) == 1 && refused(1, 0));
    memset(outcome, 0xA5, sizeof outcome);
    CHECK(ind_run(settings, image, 768, dst, 16383, list, 12, outcome) == 2 && refused(2, 0));
    memset(outcome, 0xA5, sizeof outcome);
    CHECK(ind_run(settings, image, 768, dst, 16384, list, 11, outcome) == 4 && refused(4, 0));
    CHECK(run(2) == 0 && is(0, 2, 0, 6) && all_are(8) && all_store(8));
}

/* Stores to registers (M-106): of each column's four lanes together, so 4 is one in each lane */

static bool stores_each(uint32_t op, uint32_t imm, uint32_t vd, uint32_t mod, uint32_t each)
{
    put_insn(0, op, imm, 0, vd, mod);
    return runs_alone() && all_store(each);
}

static bool swap_stores(uint32_t vc, uint32_t vd, uint32_t mod, uint32_t each)
{
    put_swap(0, vc, vd, mod);
    return runs_alone() && all_store(each);
}

static void stores_by_load(void)
{
    /* The word, and the place where it is captured: bits 2 and 3, and vd 0 to 3. */
    for (uint32_t vd = 0; vd < 16; vd++) {
        const uint32_t word = vd < 8 ? 4 : 0, both = vd < 4 ? 8 : word;
        alike(5, 0), CHECK(stores_each(LOAD, 0, vd, 6, word));
        alike(5, 1 << 2), CHECK(stores_each(LOAD, 0, vd, 6, word));
        alike(5, 1 << 3), CHECK(stores_each(LOAD, 0, vd, 6, word));
        alike(5, 0xC), CHECK(stores_each(LOAD, 0, vd, 6, both));
        alike(5, 0x3FFFD), CHECK(stores_each(LOAD, 0, vd, 6, both));
        alike(5, 0xE), CHECK(stores_each(LOAD, 0, vd, 6, 0));   /* blocked */
    }

    /* A half is stored with the half that stays; a word that was there already is stored too. */
    alike(0, 0xC);
    CHECK(stores_each(LOAD, 0, 1, 14, 8) && stores_each(LOAD, 0, 1, 15, 8) && stores_each(LOAD, 0, 1, 0, 8) && stores_each(LOAD, 0, 1, 11, 8));

    /* By lanes: captured in lane 9, blocked in lane 10, not enabled in lane 11. */
    alike(0, 0);
    image[LANES * SLOT_CONFIG + 9] = 0xC, image[LANES * SLOT_CONFIG + 10] = 0xE, image[LANES * SLOT_USE + 11] = 1;
    put_insn(0, LOAD, 0, 0, 2, 9);
    CHECK(run(1) == 0 && stores_are(4, 5, 3, 3, 4, 4, 4, 4));
}

static void stores_by_swap(void)
{
    /* Bit 2 clear: to vc and to vd, each only below 8, though they be one register. From 12 on vd needs bit 4. */
    alike(5, 0);
    CHECK(swap_stores(0, 1, 0, 8) && swap_stores(7, 4, 0, 8) && swap_stores(0, 0, 0, 8) && swap_stores(7, 7, 0, 8));
    CHECK(swap_stores(0, 8, 0, 4) && swap_stores(15, 7, 0, 4) && swap_stores(11, 3, 0, 4) && swap_stores(8, 8, 0, 0) && swap_stores(9, 11, 0, 0));
    CHECK(swap_stores(0, 12, 0, 0) && swap_stores(12, 0, 0, 4));
    alike(5, 1 << 4);
    CHECK(swap_stores(0, 12, 0, 4) && swap_stores(14, 13, 0, 0));

    /* Bit 2 set: to each only below 4, and twice for the index registers, though they be one. */
    alike(5, 1 << 2);
    CHECK(swap_stores(0, 1, 0, 16) && swap_stores(3, 2, 0, 16) && swap_stores(0, 0, 0, 16));
    CHECK(swap_stores(0, 4, 0, 12) && swap_stores(5, 1, 0, 12) && swap_stores(3, 11, 0, 12) && swap_stores(15, 3, 0, 12) && swap_stores(0, 5, 0, 12));
    CHECK(swap_stores(4, 4, 0, 8) && swap_stores(4, 7, 0, 8) && swap_stores(8, 9, 0, 8) && swap_stores(9, 9, 0, 8) && swap_stores(1, 12, 0, 0));
    alike(5, 1 << 2 | 1 << 4);
    CHECK(swap_stores(1, 12, 0, 12) && swap_stores(15, 15, 0, 8));

    /* What does not swap stores nothing. Two equal words, one register's too, swap where the maximum is wanted, and bit 8 reverses that but for mod 0. */
    for (uint32_t vd = 0; vd < 2; vd++) {
        alike(5, 0);
        CHECK(swap_stores(0, vd, 1, 0) && swap_stores(0, vd, 9, 8) && swap_stores(0, vd, 2, 4) && swap_stores(0, vd, 8, 6) && swap_stores(0, vd, 0, 8));
        alike(5, 1 << 8);
        CHECK(swap_stores(0, vd, 1, 8) && swap_stores(0, vd, 9, 0) && swap_stores(0, vd, 2, 4) && swap_stores(0, vd, 8, 2) && swap_stores(0, vd, 0, 8));
        alike(5, 1 << 2);
        CHECK(swap_stores(0, vd, 1, 0) && swap_stores(0, vd, 9, 16) && swap_stores(0, vd, 8, 12) && swap_stores(0, vd, 0, 16));
    }
    alike(5, 0);
    for (unsigned l = 0; l < LANES; l++) image[l] = 4;
    CHECK(swap_stores(0, 1, 1, 8) && swap_stores(1, 0, 1, 0) && swap_stores(0, 1, 9, 0) && swap_stores(1, 0, 9, 8));

    /* By lanes: bit 2 in lane 12 alone, and lane 21 not enabled. */
    alike(5, 0);
    image[LANES * SLOT_CONFIG + 12] = 1 << 2, image[LANES * SLOT_USE + 21] = 1;
    put_swap(0, 2, 6, 0);
    CHECK(run(1) == 0 && stores_are(8, 8, 8, 8, 9, 6, 8, 8));
}

static void stores_by_config(void)
{
    /* To 11 to 14 and to no other place; not by what is enabled but by row 0's lane, and by imm. */
    for (uint32_t mod = 0; mod < 8; mod++)
        for (uint32_t vd = 0; vd < 16; vd++) {
            alike(5, 0);
            CHECK(stores_each(CONFIG, 0, vd, mod, vd >= 11 && vd < 15 ? 4 : 0));
        }
    alike(5, 0);
    put_insn(0, CONFIG, 1 << 4 | 1 << 5 | 1 << 10, 0, 13, 8);   /* bits 4 and 10 are columns 2 and 5 */
    CHECK(run(1) == 0 && stores_are(0, 0, 4, 0, 0, 4, 0, 0));
    put_insn(0, CONFIG, 1, 0, 12, 9);
    CHECK(run(1) == 0 && stores_are(4, 0, 0, 0, 0, 0, 0, 0));
    image[LANES * SLOT_USE + 3] = image[LANES * SLOT_USE + 12] = image[LANES * SLOT_USE + 6] = image[LANES * SLOT_FLAG + 6] = 1;
    put_insn(0, CONFIG, 0, 0, 14, 1);                           /* row 0's lane 3 is off, lane 12 is in row 1, and lane 6 is on by its flag */
    CHECK(run(1) == 0 && stores_are(4, 4, 4, 0, 4, 4, 4, 4));
    put_insn(0, CONFIG, 0, 0, 0, 0);
    CHECK(run(1) == 0 && all_store(0) && image[LANES * SLOT_TEMPLATE] == 5);
}

static void stores_by_lut(void)
{
    /* vd below 8, or the register that the low four bits of 7 name. */
    for (uint32_t r = 0; r < 16; r++) {
        const uint32_t each = r < 8 ? 4 : 0;
        alike(0, 1 << 4);
        CHECK(stores_each(LUT, 0, r, 0, each) && stores_each(LUT, 0, r, 4, each));
        for (unsigned l = 0; l < LANES; l++) image[LANES * 7 + l] = 0xFFFFFFF0 | r;
        CHECK(stores_each(LUT, 0, 2, 8, each) && stores_each(LUT, 0, 15, 8, each) && stores_each(LUT, 0, 9, 12, each) && stores_each(LUT, 0, 15, 4, 0));
        for (unsigned l = 0; l < LANES; l++) image[LANES * SLOT_CONFIG + l] = 0;
        CHECK(stores_each(LUT, 0, 11, 8, each) && stores_each(LUT, 0, 12, 8, 0));
    }
    alike(0, 0);
    for (unsigned l = 0; l < LANES; l++) image[LANES * 7 + l] = l < 20 ? l : 9;         /* none in rows 1 and 3, nor in lanes 20 to 23 */
    put_insn(0, LUT, 0, 0, 1, 12);
    CHECK(run(1) == 0 && stores_are(2, 2, 2, 2, 1, 1, 1, 1));
}

static void stores_by_others(void)
{
    /* One where vd is below 8, with a flag or without. */
    static const struct { uint32_t op, imm, mod, flag; } one[] = {
        { LOADI, 7, 8, 0 }, { LOADI, 7, 10, 0 }, { IADD, 4095, 1, 0 }, { IADD, 4090, 1, 1 }, { IADD, 0, 12, 1 }, { IADD, 0, 4, 0 }, { IADD, 0, 2, 0 }, { ABS, 0, 0, 0 },
        { ABS, 0, 1, 0 }, { AND, 0, 0, 0 }, { AND, 0, 1, 0 }, { OR, 0, 0, 0 }, { OR, 0, 1, 0 }, { XOR, 0, 0, 0 }, { NOT, 0, 0, 0 }, { LZ, 0, 0, 0 }, { LZ, 0, 2, 1 },
        { LZ, 0, 8, 1 }, { LZ, 0, 10, 0 }, { EXEXP, 0, 0, 0 }, { EXEXP, 0, 2, 1 }, { EXEXP, 0, 9, 1 }, { EXMAN, 0, 0, 0 }, { EXMAN, 0, 1, 0 },
    };
    for (size_t i = 0; i < sizeof one / sizeof *one; i++)
        for (uint32_t vd = 0; vd < 16; vd++) {
            alike(5, 0x3FFFF);
            put_insn(0, one[i].op, one[i].imm, 0, vd, one[i].mod);
            CHECK(run(1) == 0 && all_store(vd < 8 ? 4 : 0));
            for (unsigned l = 0; l < LANES; l++) CHECK(image[LANES * SLOT_FLAG + l] == (vd < 8 ? one[i].flag : 0));
        }
    for (uint32_t vd = 0; vd < 16; vd++) CHECK(stores_each(STORE, 0, vd, 7, 0));
    CHECK(stores_each(NOP, 0, 0, 0, 0));

    /* Lanes not enabled: row 1 and, in column 2, row 3 too. Lane 20's LaneFlag enables it. */
    alike(5, 0);
    for (unsigned l = 8; l < 16; l++) image[LANES * SLOT_USE + l] = 1;
    image[LANES * SLOT_USE + 26] = 1;
    image[LANES * SLOT_USE + 20] = image[LANES * SLOT_FLAG + 20] = image[LANES * SLOT_FLAG + 21] = 1;
    put_insn(0, NOT, 0, 0, 3, 0);
    CHECK(run(1) == 0 && stores_are(3, 3, 2, 3, 3, 3, 3, 3));

    /* A lane alone, by its column. */
    for (unsigned l = 0; l < LANES; l++) {
        alike(5, 0);
        for (unsigned other = 0; other < LANES; other++) image[LANES * SLOT_USE + other] = other != l;
        CHECK(run(1) == 0);
        for (unsigned c = 0; c < 8; c++) CHECK(outcome[O_STORES + c] == (c == l % 8));
    }
}

static void stores_over_a_list(void)
{
    /* They add up: 8, 16, 4, 0, 0 and 4. */
    alike(5, 0xC);
    put_insn(0, LOAD, 0, 0, 3, 9), put_swap(1, 0, 1, 0), put_insn(2, CONFIG, 0, 0, 11, 0), put_insn(3, STORE, 0, 0, 3, 9), put_insn(4, NOP, 0, 0, 0, 0);
    put_insn(5, IADD, 0, 0, 2, 1);
    CHECK(run(6) == 0 && is(0, 6, 0, 0) && all_store(32) && all_are(0));
    CHECK(run(5) == 0 && all_store(28) && run(2) == 0 && all_store(24) && run(1) == 0 && all_store(8) && run(0) == 0 && all_store(0));

    /* By the lane as it is then: CONFIG has column 4 capture; IADD takes away the flags that enabled all lanes, so that CONFIG passes over them too. */
    alike(0xC, 0);
    put_insn(0, LOAD, 0, 0, 1, 9), put_insn(1, CONFIG, 1 << 8, 0, 15, 8), put_insn(2, LOAD, 0, 0, 1, 9);
    CHECK(run(3) == 0 && stores_are(8, 8, 8, 8, 12, 8, 8, 8));
    alike(5, 0);
    for (unsigned l = 0; l < LANES; l++) image[LANES * SLOT_USE + l] = image[LANES * SLOT_FLAG + l] = 1;
    put_insn(0, LOADI, 1, 0, 4, 10), put_insn(1, IADD, 0, 0, 4, 1), put_insn(2, LOADI, 1, 0, 4, 10), put_insn(3, CONFIG, 0, 0, 11, 1);
    CHECK(run(4) == 0 && all_store(8));

    /* A tie counts whether it swaps or not, and stores only where there is a swap. */
    alike(5, 0);
    put_swap(0, 0, 1, 1), put_swap(1, 0, 1, 5), put_swap(2, 0, 9, 1), put_swap(3, 2, 9, 9);     /* none; 6, in all rows but 0; none, and no tie; 4 */
    CHECK(run(4) == 0 && all_are(12) && all_store(10));

    /* At most 16 an instruction: 16,384 instructions, each with four stores in every lane. */
    alike(5, 1 << 2);
    for (size_t i = 0; i < MAX_INSNS; i++) put_swap(i, i % 4, i / 4 % 4, 0);
    CHECK(run(MAX_INSNS) == 0 && is(0, 16384, 0, 0) && all_store(262144));
}

/* Walks (M-103) */

static uint32_t store_words[ROOM_STORE], walk[2];

/* What is lent as it was, to see what a step leaves alone. */
static struct {
    uint32_t image[ROOM_IMAGE], store[ROOM_STORE], walk[2];
    uint16_t dst[ROOM_DST];
} was;

static void look(void)
{
    memcpy(was.image, image, sizeof image);
    memcpy(was.dst, dst, sizeof dst);
    memcpy(was.store, store_words, sizeof store_words);
    memcpy(was.walk, walk, sizeof walk);
}

static bool same_image(void) { return memcmp(was.image, image, sizeof image) == 0; }
static bool same_dst(void) { return memcmp(was.dst, dst, sizeof dst) == 0; }
static bool same_store(void) { return memcmp(was.store, store_words, sizeof store_words) == 0; }
static bool same(void) { return same_image() && same_dst() && same_store() && memcmp(was.walk, walk, sizeof walk) == 0; }

/* An image of words that differ wherever they may, all lanes enabled; cells that differ; a store in which nothing is written; and a walk that is none. */
static void lend(void)
{
    fresh();
    for (uint32_t i = 0; i < ROOM_IMAGE; i++) image[i] = i % 768 / 32 >= SLOT_CONFIG && i % 768 / 32 <= SLOT_USE ? 0 : i + 1000;
    for (uint32_t i = 0; i < ROOM_DST; i++) dst[i] = (uint16_t)(i + 7);
    for (uint32_t i = 0; i < ROOM_STORE; i++) store_words[i] = 0xA5A5A5A5;
    walk[0] = 77, walk[1] = 7777;
}

/* Of the first so many instructions, and with a store of so many words. */
static uint32_t begin(size_t count)
{
    memset(outcome, 0xA5, sizeof outcome);
    uint32_t answer = ind_begin(settings, image, 768, 16384, list, 6 * count, outcome, walk);
    CHECK(answer == outcome[O_ANSWER] && outcome[4] == 0xA5A5A5A5);
    return answer;
}

static uint32_t forward(size_t count, size_t room) { return ind_forward(settings, image, 768, dst, 16384, list, 6 * count, store_words, room, walk); }
static uint32_t back(size_t count, size_t room) { return ind_back(settings, image, 768, dst, 16384, list, 6 * count, store_words, room, walk); }

static bool walk_is(uint32_t at, uint32_t cursor) { return walk[0] == at && walk[1] == cursor; }

/* Whether the two are refused so, and nothing changes. */
static bool both_refused(uint32_t answer, size_t image_len, size_t dst_len, size_t list_len, size_t room)
{
    look();
    uint32_t f = ind_forward(settings, image, image_len, dst, dst_len, list, list_len, store_words, room, walk);
    bool good = f == answer && same();
    uint32_t b = ind_back(settings, image, image_len, dst, dst_len, list, list_len, store_words, room, walk);
    return good && b == answer && same();
}

static bool refused_forward(uint32_t answer, size_t count, size_t room) { return look(), forward(count, room) == answer && same(); }
static bool refused_back(uint32_t answer, size_t count, size_t room) { return look(), back(count, room) == answer && same(); }

static void beginnings(void)
{
    lend();
    settings[S_CURSOR] = 1023;
    nops(0, 16385);
    look();
    CHECK(begin(16384) == 0 && is(0, 0, 0, 1023) && walk_is(0, 1023));
    CHECK(begin(0) == 0 && is(0, 0, 0, 1023) && same_image() && same_dst());
    walk[0] = 77, walk[1] = 7777;
    CHECK(begin(16385) == 5 && is(5, 0, 0, 1023) && same());
    list[6 * 16383 + F_MOD] = 1;
    CHECK(begin(16384) == 8 && is(8, 0, 16383, 1023) && same());
    list[6 * 7 + F_MOD] = 1;
    CHECK(begin(8) == 8 && is(8, 0, 7, 1023) && same());
    list[6 * 7] = 17;
    CHECK(begin(8) == 7 && is(7, 0, 7, 1023) && same());
    put_insn(7, LOAD, 0, 0, 0, 12);
    CHECK(begin(8) == 9 && is(9, 0, 7, 1023) && same());
    CHECK(begin(7) == 0 && walk_is(0, 1023));

    /* In the order of a run: all that is wrong is put right in turn. */
    lend();
    settings[S_CURSOR] = 1024, image[736] = 4096;
    look();
    CHECK(ind_begin(settings, image, 769, 0, list, 98311, outcome, walk) == 1 && is(1, 0, 0, 1024) && same());
    CHECK(ind_begin(settings, image, 768, 0, list, 98311, outcome, walk) == 2 && is(2, 0, 0, 1024) && same());
    CHECK(ind_begin(settings, image, 768, 16384, list, 98311, outcome, walk) == 3 && is(3, 0, 0, 1024) && same());
    settings[S_CURSOR] = 3;
    CHECK(ind_begin(settings, image, 768, 16384, list, 98311, outcome, walk) == 4 && is(4, 0, 0, 3) && same());
    CHECK(begin(16385) == 5 && is(5, 0, 0, 3) && same());
    CHECK(begin(8) == 6 && is(6, 0, 0, 3) && same());
}

/* Every word of an entry, of a STORE's and of two others'. */
static void entries(void)
{
    lend();
    settings[S_OFFSET] = 1000, settings[S_CURSOR] = 1000, settings[S_STRIDE0 + 2] = 100;
    image[LANES * SLOT_CONFIG + 3] = image[LANES * SLOT_CONFIG + 10] = 1 << 5;      /* lane 3 is in row 0, lane 10 is not */
    image[LANES * SLOT_USE + 12] = 1;
    put_insn(0, STORE, 57, 2, 15, 6);          /* 57 + 1000 + 1000 = 9 + 2048 */
    put_insn(1, LOADI, 65535, 0, 1, 10);        /* 65535 + 1000 + (1100 - 1024) = 66611 = 51 + 65 x 1024 */
    put_insn(2, NOP, 0, 0, 0, 0);               /* 1000 + 76 = 52 + 1024 */
    CHECK(begin(3) == 0 && walk_is(0, 1000));
    settings[S_CURSOR] = 5;                     /* the walk's cursor counts now */

    look();
    CHECK(forward(3, ROOM_STORE) == 0 && walk_is(1, 76) && same_image());
    for (uint32_t i = 0; i < 768; i++) CHECK(store_words[i] == image[i]);
    CHECK(store_words[768] == 1000 && store_words[769] == 9);
    for (uint32_t l = 0; l < 32; l++) {
        uint32_t place = (8 + l / 8) * 16 + l % 8 * 2 + (l % 8 == 3);
        CHECK(store_words[770 + l] == place + 7);               /* lane 12's too */
        CHECK(dst[place] == (l == 12 ? place + 7 : 2 * l));
    }
    for (uint32_t i = 802; i < ROOM_STORE; i++) CHECK(store_words[i] == 0xA5A5A5A5);
    CHECK(cells_changed(was.dst) == 31);

    look();
    CHECK(forward(3, ROOM_STORE) == 0 && walk_is(2, 76) && same_dst() && image[32 + 5] == 65535 && image[32 + 12] == 1044);
    for (uint32_t i = 0; i < 768; i++) CHECK(store_words[802 + i] == was.image[i]);
    CHECK(store_words[802 + 768] == 76 && store_words[802 + 769] == 51);
    for (uint32_t l = 0; l < 32; l++) CHECK(store_words[802 + 770 + l] == 0);
    CHECK(memcmp(store_words, was.store, 802 * sizeof *store_words) == 0 && store_words[1604] == 0xA5A5A5A5);

    look();
    CHECK(forward(3, ROOM_STORE) == 0 && walk_is(3, 76) && same_image() && same_dst() && store_words[1604 + 768] == 76 && store_words[1604 + 769] == 52);

    /* Back over the three: the store stays, and what it has is brought back. */
    look();
    CHECK(back(3, ROOM_STORE) == 0 && walk_is(2, 76) && same_image() && same_dst() && same_store());
    CHECK(back(3, ROOM_STORE) == 0 && walk_is(1, 76) && image[32 + 5] == 1037 && same_dst() && same_store());
    CHECK(back(3, ROOM_STORE) == 0 && walk_is(0, 1000) && same_store());
    for (uint32_t i = 0; i < DST_CELLS; i++) CHECK(dst[i] == i + 7);

    /* The room is used again. */
    settings[S_OFFSET] = 0;
    CHECK(forward(3, ROOM_STORE) == 0 && walk_is(1, 76) && store_words[769] == 33 && store_words[770] == 32 * 16 + 7 && store_words[802 + 769] == 51);
}

static void both_ends(void)
{
    lend();
    put_insn(0, STORE, 4, 0, 10, 7), put_insn(1, LOAD, 4, 0, 0, 7);
    CHECK(begin(2) == 0 && refused_back(12, 2, ROOM_STORE));
    CHECK(forward(2, ROOM_STORE) == 0 && forward(2, ROOM_STORE) == 0 && walk_is(2, 0) && image[9] == 0x3F800000);
    for (uint32_t l = 0; l < 32; l++) CHECK(store_words[770 + l] != 0 && store_words[802 + 770 + l] == 0);      /* the same address, but LOAD's */
    CHECK(refused_forward(12, 2, ROOM_STORE) && refused_forward(12, 1, ROOM_STORE) && refused_back(12, 1, ROOM_STORE));
    CHECK(back(2, ROOM_STORE) == 0 && back(2, ROOM_STORE) == 0 && walk_is(0, 0) && refused_back(12, 2, ROOM_STORE));
    CHECK(begin(0) == 0 && refused_forward(12, 0, ROOM_STORE) && refused_back(12, 0, ROOM_STORE));
    walk[0] = 3;
    CHECK(refused_forward(12, 2, ROOM_STORE) && refused_back(12, 2, ROOM_STORE));
    walk[0] = 4294967295;
    CHECK(refused_forward(12, 2, ROOM_STORE) && refused_back(12, 2, ROOM_STORE));

    /* A word too few: forward needs an entry's words beside those that are kept, back the kept ones. */
    CHECK(begin(2) == 0 && refused_forward(12, 2, 0) && refused_forward(12, 2, 801) && forward(2, 802) == 0);
    CHECK(refused_forward(12, 2, 802) && refused_forward(12, 2, 1603) && forward(2, 1604) == 0);
    CHECK(refused_back(12, 2, 1603) && refused_back(12, 2, 0) && back(2, 1604) == 0);
    CHECK(refused_back(12, 2, 801) && back(2, 802) == 0 && walk_is(0, 0));
}

static void refused_steps(void)
{
    /* 1, 2, ... in turn, while all that comes after is wrong too. The walk's cursor is a 3, and the settings' own. */
    lend();
    settings[S_STRIDE0] = 1024, image[LANES * SLOT_FLAG] = 2;
    CHECK(both_refused(1, 767, 0, 98311, 0) && both_refused(1, 0, 0, 98311, 0) && both_refused(2, 768, 16385, 98311, 0));
    CHECK(both_refused(3, 768, 16384, 98311, 0));
    settings[S_STRIDE0] = 0;
    CHECK(both_refused(3, 768, 16384, 98311, 0));
    settings[S_CURSOR] = 1024, walk[1] = 1023;
    CHECK(both_refused(3, 768, 16384, 98311, 0));
    settings[S_CURSOR] = 0;
    CHECK(both_refused(4, 768, 16384, 98311, 0) && both_refused(5, 768, 16384, 98310, 0) && both_refused(6, 768, 16384, 98304, 0));
    image[LANES * SLOT_FLAG] = 1;
    CHECK(both_refused(12, 768, 16384, 98304, 0));
    walk[1] = 1024;
    CHECK(both_refused(3, 768, 16384, 0, 0));

    /* 12 before 7, 8 and 9, which are of the instruction at hand alone; back asks only whether it is a STORE. */
    lend();
    put_insn(0, STORE, 4, 0, 10, 7), put_insn(1, 17, 0, 0, 0, 0), put_insn(2, STORE, 4, 0, 10, 3);
    CHECK(begin(3) == 7 && is(7, 0, 1, 0));
    walk[0] = 0, walk[1] = 0;
    CHECK(forward(3, ROOM_STORE) == 0 && walk_is(1, 0));
    CHECK(refused_forward(12, 3, 1603) && refused_forward(7, 3, 1604));
    put_insn(1, NOP, 0, 0, 0, 1);
    CHECK(refused_forward(12, 3, 1603) && refused_forward(8, 3, 1604));
    put_insn(1, LOAD, 0, 0, 0, 4);
    CHECK(refused_forward(12, 3, 1603) && refused_forward(9, 3, 1604));
    memcpy(store_words + 1604, store_words, 802 * sizeof *store_words);
    store_words[1604 + 770] = 0xBEEF;
    walk[0] = 3;
    CHECK(back(3, 2406) == 0 && walk_is(2, 0) && dst[4 * 16] == 0xBEEF && dst[4 * 16 + 2] == 4 * 16 + 2 + 7);
    put_insn(1, 16 + 65536, 4, 0, 10, 7);
    memcpy(store_words + 802, store_words, 802 * sizeof *store_words);
    look();
    CHECK(back(3, 2406) == 0 && walk_is(1, 0) && same_dst() && dst[4 * 16] == 0xBEEF);
}

/* An entry that the host has changed is taken as it is. */
static void damaged_entries(void)
{
    lend();
    put_insn(0, STORE, 8, 0, 10, 7), put_insn(1, NOP, 0, 0, 0, 0);
    CHECK(begin(2) == 0 && forward(2, ROOM_STORE) == 0 && dst[8 * 16] == 0x3F80);
    store_words[768] = 4294967295, store_words[769] = 0u - 1021, store_words[770] = 0xABCDEF01, store_words[LANES * SLOT_MISC] = 99999;
    look();
    CHECK(back(2, ROOM_STORE) == 0 && walk_is(0, 4294967295) && same_store());
    CHECK(dst[1] == 0xEF01 && dst[3] == 8 * 16 + 2 + 7);        /* address 3 mod 1024: rows 0 to 3, odd columns */
    CHECK(dst[8 * 16] == 0x3F80 && cells_changed(was.dst) == 32);
    CHECK(image[LANES * SLOT_MISC] == 99999 && refused_forward(3, 2, ROOM_STORE) && refused_back(3, 2, ROOM_STORE));
    walk[1] = 0;
    CHECK(refused_forward(6, 2, ROOM_STORE) && refused_back(6, 2, ROOM_STORE));

    /* The column is by bit 5 of the entry's image, not of the one that it takes the place of. A lane need not be enabled. */
    lend();
    image[LANES * SLOT_USE + 9] = 1;
    CHECK(begin(2) == 0 && forward(2, ROOM_STORE) == 0 && dst[8 * 16] == 0x3F80 && dst[8 * 16 + 4] == 0x3F80);
    store_words[LANES * SLOT_CONFIG + 2] = 1 << 5, store_words[770 + 9] = 0xBEEF, image[LANES * SLOT_CONFIG] = 1 << 5;
    CHECK(back(2, ROOM_STORE) == 0 && dst[8 * 16] == 8 * 16 + 7 && dst[8 * 16 + 4] == 0x3F80 && dst[8 * 16 + 5] == 8 * 16 + 4 + 7);
    CHECK(dst[9 * 16 + 2] == 0xBEEF);

    /* The cells of another op's entry mean nothing, and its image is brought back all the same. */
    lend();
    put_insn(0, NOP, 0, 0, 0, 0);
    CHECK(begin(2) == 0 && forward(2, ROOM_STORE) == 0);
    store_words[5] = 123, store_words[770] = 456;
    look();
    CHECK(back(2, ROOM_STORE) == 0 && image[5] == 123 && same_dst());
}

/* Wherever steps lead, it is where a run of so many instructions ends. */
static void walks_as_runs(void)
{
    static const uint32_t insns[][6] = {
        { STORE, 40, 0, 0, 3, 2 }, { LOADI, 65535, 0, 0, 3, 8 }, { STORE, 40, 1, 0, 3, 7 }, { LOAD, 37, 2, 0, 4, 9 }, { CONFIG, 32, 0, 0, 15, 7 },
        { STORE, 32, 0, 0, 4, 6 }, { IADD, 4095, 0, 3, 3, 1 }, { STORE, 36, 3, 0, 15, 9 }, { SWAP, 0, 0, 3, 4, 1 }, { EXEXP, 0, 0, 4, 5, 10 },
        { STORE, 33, 0, 0, 5, 2 }, { CONFIG, 0, 0, 0, 12, 1 }, { STORE, 34, 0, 0, 12, 7 }, { LUT, 0, 0, 0, 2, 4 }, { NOT, 0, 0, 2, 1, 0 },
    };
    enum { COUNT = sizeof insns / sizeof *insns };
    static uint32_t first_image[ROOM_IMAGE];
    static uint16_t first_dst[ROOM_DST];
    uint32_t x = 1, done = 0, most = 0;
    lend();
    settings[S_OFFSET] = 1000, settings[S_CURSOR] = 1023, settings[S_STRIDE0 + 1] = 4, settings[S_STRIDE0 + 3] = 1021;
    for (uint32_t l = 0; l < LANES; l++) image[LANES * SLOT_CONFIG + l] = l % 3 << 5, image[LANES * SLOT_USE + l] = l % 5 == 0, image[LANES * SLOT_FLAG + l] = l % 2;
    memcpy(list, insns, sizeof insns);
    memcpy(first_image, image, sizeof image);
    memcpy(first_dst, dst, sizeof dst);
    CHECK(begin(COUNT) == 0);
    for (int steps = 0; steps < 600; steps++) {
        x = x * 1664525 + 1013904223;
        if (x >> 16 & 1) {
            CHECK(forward(COUNT, 802 * COUNT) == (done < COUNT ? 0 : 12));
            done += done < COUNT;
        } else {
            CHECK(back(COUNT, 802 * COUNT) == (done > 0 ? 0 : 12));
            done -= done > 0;
        }
        if (done > most) most = done;
        look();
        memcpy(image, first_image, sizeof image);
        memcpy(dst, first_dst, sizeof dst);
        CHECK(run(done) == 0 && same_image() && same_dst() && walk_is(done, outcome[O_CURSOR]));
    }
    CHECK(most == COUNT);
}

/* Listings: document 01's example, an old listing, and the same list as it is written now (M-105) */

static const char worked[] =
    "edition=1\nsrcb=2\noffset=0000\ncursor=0000\nstride0=0000\nstride1=0000\nstride2=0000\nstride3=0000\ncount=0001\n"
    "op=CONFIG imm=00001 vb=00 vc=00 vd=12 mod=09\n";
static const char rewritten[] =
    "format=2\nedition=1\nsrcb=2\noffset=0000\ncursor=0000\nstride0=0000\nstride1=0000\nstride2=0000\nstride3=0000\ncount=00001\n"
    "op=CONFIG imm=00001 vb=00 vc=00 vd=12 mod=09\n";
static const char worked_report[] =
    "answer=0\nsteps=00001\nplace=00000\ncursor=0000\n"
    "reg=12 lane=00 word=37800000\nreg=12 lane=08 word=37800000\nreg=12 lane=16 word=37800000\nreg=12 lane=24 word=37800000\n";

static char text[ROOM_TEXT];
static size_t text_len;

static void say(const char *bytes) { text_len = strlen(strcpy(text, bytes)); }

static void change(const char *from, const char *to)
{
    char *at = strstr(text, from);
    CHECK(at != NULL);
    if (at == NULL) return;
    size_t f = strlen(from), t = strlen(to);
    memmove(at + t, at + f, strlen(at + f) + 1);
    memcpy(at, to, t);
    text_len = strlen(text);
}

static bool all_words(size_t from, size_t to, uint32_t word)
{
    while (from < to && list[from] == word) from++;
    return from == to;
}

static bool all_nops(size_t count)
{
    size_t i = 0;
    while (i < 6 * count && list[i] == (i % 6 == 0 ? NOP : 0)) i++;
    return i == 6 * count;
}

/* Reads the text into a room of the given size; on a refusal room and settings must be as document 01 says. */
static uint32_t read_into(size_t room)
{
    for (size_t i = 0; i < ROOM_LIST; i++) list[i] = 77;
    memset(outcome, 0xA5, sizeof outcome);
    uint32_t answer = ind_read((const uint8_t *)text, text_len, list, room, settings, outcome);
    CHECK(outcome[O_LENGTH + 1] == 0xA5A5A5A5);
    CHECK(all_words(outcome[O_LENGTH], ROOM_LIST, 77));
    CHECK(answer == outcome[O_ANSWER] && settings[S_CURSOR] == outcome[O_CURSOR]);
    if (answer != 0) {
        CHECK(outcome[O_LENGTH] == 0);
        for (int i = 0; i < 8; i++) CHECK(i == S_CURSOR || settings[i] == 0);
    }
    return answer;
}

static bool reads(uint32_t answer, uint32_t place, uint32_t cursor) { return read_into(6) == answer && is(answer, 0, place, cursor); }

/* What the program prints for the text. */
static const char *printed(void by(FILE *in, FILE *out))
{
    static char got[ROOM_TEXT];
    FILE *in = tmpfile(), *out = tmpfile();
    if (in == NULL || out == NULL) return "no temporary file";
    fwrite(text, 1, text_len, in);
    rewind(in);
    by(in, out);
    rewind(out);
    got[fread(got, 1, sizeof got - 1, out)] = 0;
    fclose(in);
    fclose(out);
    return got;
}

static bool report(const char *expected) { return strcmp(printed(ind_replay), expected) == 0; }

static bool rewrites(const char *expected) { return strcmp(printed(ind_rewrite), expected) == 0; }

static void listings(void)
{
    uint8_t room[200];

    say(worked);
    CHECK(report(worked_report));
    CHECK(reads(0, 0, 0) && outcome[O_LENGTH] == 6 && settings[0] == 1 && settings[1] == 2);
    CHECK(read_into(5) == 11 && is(11, 0, 0, 0));
    CHECK(read_into(6) == 0);

    /* Written it is the same list in format 2; a room one byte short is left alone. */
    memset(room, 9, sizeof room);
    CHECK(ind_write(settings, list, 6, room, sizeof rewritten - 2, outcome) == 11 && is(11, 0, 0, 0) && outcome[O_LENGTH] == 0 && room[0] == 9);
    memset(outcome, 0xA5, sizeof outcome);
    CHECK(ind_write(settings, list, 6, room, sizeof rewritten - 1, outcome) == 0 && outcome[O_LENGTH] == sizeof rewritten - 1 && outcome[O_LENGTH + 1] == 0xA5A5A5A5);
    CHECK(memcmp(room, rewritten, sizeof rewritten - 1) == 0 && room[sizeof rewritten - 1] == 9);
    settings[S_CURSOR] = 7;
    CHECK(ind_write(settings, list, 5, room, 0, outcome) == 4 && is(4, 0, 0, 7));
    list[F_MOD] = 16;
    CHECK(ind_write(settings, list, 6, room, 0, outcome) == 8 && is(8, 0, 0, 7));
    settings[S_CURSOR] = 70000;
    CHECK(ind_write(settings, list, 5, room, 0, outcome) == 3 && is(3, 0, 0, 70000));

    /* STORE, from Dst to a register and back; each report begins from zeros. */
    say(worked), change("CONFIG imm=00001 vb=00 vc=00 vd=12 mod=09", "STORE imm=00004 vb=00 vc=00 vd=10 mod=07");
    CHECK(reads(0, 0, 0) && list[F_OP] == STORE && list[F_VD] == 10);
    CHECK(report("answer=0\nsteps=00001\nplace=00000\ncursor=0000\n"));
    change("STORE", "LOAD"), change("vd=10", "vd=01");
    CHECK(report("answer=0\nsteps=00001\nplace=00000\ncursor=0000\n"));
    change("LOAD", "STORE"), change("mod=07", "mod=03");
    CHECK(read_into(0) == 8 && is(8, 0, 0, 0));
    change("STORE", "STORES");
    CHECK(reads(10, 10, 0));

    /* The first line not in form. */
    say("");
    CHECK(reads(10, 1, 0));
    CHECK(report("answer=10\nsteps=00000\nplace=00001\ncursor=0000\n"));
    say(worked), text_len -= 1;
    CHECK(reads(10, 10, 0));
    say(worked), text_len -= 45;
    CHECK(reads(10, 10, 0));
    say(worked), change("mod=09\n", "mod=09\n\n");
    CHECK(reads(10, 11, 0));
    say(worked), change("CONFIG", "CONFIGS");
    CHECK(reads(10, 10, 0));
    say(worked), change("srcb=2\n", "srcb=2\r\n"), change("CONFIG", "config");
    CHECK(reads(10, 2, 0));
    say(worked), change("cursor=0000", "cursor=00000");
    CHECK(reads(10, 4, 0));

    /* Count before the rest, the rest before 3, 3 before 8 and 9, those before the room. */
    say(worked), change("cursor=0000", "cursor=5000"), change("count=0001", "count=1025"), change("op=", "OP=");
    CHECK(reads(5, 0, 5000));
    change("count=1025", "count=0001"), change("edition=1", "edition=3");
    CHECK(reads(10, 10, 0));
    change("OP=", "op="), change("vd=12", "vd=16");
    CHECK(reads(3, 0, 5000));
    CHECK(report("answer=3\nsteps=00000\nplace=00000\ncursor=5000\n"));
    change("edition=3", "edition=2"), change("cursor=5000", "cursor=0500");
    CHECK(read_into(0) == 8 && is(8, 0, 0, 500));
    change("CONFIG", "LOAD"), change("vd=16", "vd=15"), change("mod=09", "mod=12");
    CHECK(read_into(0) == 9 && is(9, 0, 0, 500));
    change("mod=12", "mod=11");
    CHECK(read_into(0) == 11 && is(11, 0, 0, 0));
    change("count=0001", "count=0000");
    CHECK(reads(10, 10, 0));
}

/* Formats and lengths (M-105) */

static bool starts(const char *first_line, uint32_t answer, uint32_t place)
{
    say(rewritten), change("format=2\n", first_line);
    return reads(answer, place, 0);
}

/* The first line, and each line after it by itself. */
static void formats(void)
{
    say(rewritten);
    CHECK(reads(0, 0, 0) && outcome[O_LENGTH] == 6 && settings[0] == 1 && settings[1] == 2 && list[0] == CONFIG && list[1] == 1 && list[4] == 12 && list[5] == 9);
    CHECK(read_into(5) == 11 && is(11, 0, 0, 0));
    CHECK(report(worked_report) && rewrites(rewritten));

    CHECK(starts("format=1\n", 10, 1) && starts("format=3\n", 10, 1) && starts("format=0\n", 10, 1) && starts("format=4\n", 10, 1));
    CHECK(starts("format=2\r\n", 10, 1) && starts("format=2", 10, 1) && starts("format=2 ", 10, 1) && starts("format=2 \n", 10, 1));
    CHECK(starts(" format=2\n", 10, 1) && starts("format= 2\n", 10, 1) && starts("\nformat=2\n", 10, 1) && starts("\xEF\xBB\xBF" "format=2\n", 10, 1));
    CHECK(starts("format=02\n", 10, 1) && starts("format=20\n", 10, 1) && starts("FORMAT=2\n", 10, 1) && starts("format:2\n", 10, 1) && starts("format=\n", 10, 1));
    CHECK(starts("format=2\nformat=2\n", 10, 2) && starts("format=2\n\n", 10, 2));
    CHECK(starts("", 10, 9));                                   /* an old listing, with five digits */
    CHECK(starts("format=2\n", 0, 0));
    say("format=2\n");
    CHECK(reads(10, 2, 0) && report("answer=10\nsteps=00000\nplace=00002\ncursor=0000\n"));
    for (text_len = 1; text_len < 9; text_len++) CHECK(reads(10, 1, 0));
    say("format=3\n"), CHECK(reads(10, 1, 0));

    /* Four digits belong to old listings, five to format 2. */
    say(worked), change("edition", "format=2\nedition");
    CHECK(reads(10, 10, 0));
    change("count=0001", "count=00001");
    CHECK(reads(0, 0, 0));
    change("count=00001", "count=000001");
    CHECK(reads(10, 10, 0));
    say(worked), change("count=0001", "count=00001");
    CHECK(reads(10, 9, 0) && rewrites("answer=10\nsteps=00000\nplace=00009\ncursor=0000\n"));
    say(worked), change("stride0", "format=2\nstride0");
    CHECK(reads(10, 5, 0));

    /* The line is told as it stands in the text: of each from the second on the first byte, and the last before its LF, and a text that ends before it. */
    uint32_t line = 2;
    for (size_t at = 9; at < sizeof rewritten - 1; line++) {
        size_t end = at + strcspn(rewritten + at, "\n");
        say(rewritten), text[at] = '?';
        CHECK(reads(10, line, 0));
        say(rewritten), text[end - 1] = '?';
        CHECK(reads(10, line, 0));
        say(rewritten), text_len = at;
        CHECK(reads(10, line, 0));
        text_len = end;
        CHECK(reads(10, line, 0));
        at = end + 1;
    }
    CHECK(line == 12);
    say(rewritten), change("mod=09\n", "mod=09\n\n");
    CHECK(reads(10, 12, 0));
    say(rewritten), change("count=00001", "count=00000");
    CHECK(reads(10, 11, 0));
    say(rewritten), change("count=00001", "count=00002");
    CHECK(reads(10, 12, 0));

    /* Count before the rest, the rest before 3, 3 before 8 and 9, those before the room. */
    say(rewritten), change("cursor=0000", "cursor=5000"), change("count=00001", "count=16385"), change("op=", "OP=");
    CHECK(reads(5, 0, 5000) && report("answer=5\nsteps=00000\nplace=00000\ncursor=5000\n"));
    change("count=16385", "count=99999");
    CHECK(reads(5, 0, 5000));
    change("count=99999", "count=16384");
    CHECK(reads(10, 11, 0));
    change("count=16384", "count=00001"), change("edition=1", "edition=3");
    CHECK(reads(10, 11, 0));
    change("OP=", "op="), change("vd=12", "vd=16");
    CHECK(reads(3, 0, 5000) && rewrites("answer=3\nsteps=00000\nplace=00000\ncursor=5000\n"));
    change("edition=3", "edition=2"), change("cursor=5000", "cursor=0500");
    CHECK(read_into(0) == 8 && is(8, 0, 0, 500));
    change("CONFIG", "LOAD"), change("vd=16", "vd=15"), change("mod=09", "mod=12");
    CHECK(read_into(0) == 9 && is(9, 0, 0, 500));
    change("mod=12", "mod=11");
    CHECK(read_into(0) == 11 && is(11, 0, 0, 0));
}

/* A listing of so many NOPs, whatever its form allows, with a cursor of 12. */
static void say_nops(bool old, uint32_t count)
{
    say(old ? worked : rewritten);
    text_len -= 45;
    memcpy(strstr(text, "cursor=") + 7, "0012", 4);
    text_len -= old ? 5 : 6;
    text_len += (size_t)sprintf(text + text_len, old ? "%04" PRIu32 "\n" : "%05" PRIu32 "\n", count);
    for (uint32_t i = 0; i < count; i++) text_len += (size_t)sprintf(text + text_len, "op=NOP imm=00000 vb=00 vc=00 vd=00 mod=00\n");
}

/* The last instruction's mod is 1, or its line is short of an LF. */
static void break_last_mod(void) { text[text_len - 2] = '1'; }
static void break_last_line(void) { text_len -= 1; }

static void limits(void)
{
    static uint8_t room[ROOM_TEXT];
    uint32_t count;

    /* Old listings to 1,024, format 2 to 16,384; what is read is NOPs and nothing else, and is written in format 2. */
    for (int old = 0; old < 2; old++) {
        count = old ? 1024 : 16384;
        say_nops(old, count);
        CHECK(read_into(ROOM_LIST) == 0 && is(0, 0, 0, 12) && outcome[O_LENGTH] == 6 * count && all_nops(count));
        CHECK(ind_write(settings, list, 6 * count, room, ROOM_TEXT, outcome) == 0 && is(0, 0, 0, 12));
        say_nops(false, count);
        CHECK(outcome[O_LENGTH] == text_len && memcmp(room, text, text_len) == 0);
        say_nops(old, count);
        CHECK(read_into(6 * count) == 0 && read_into(6 * count - 1) == 11 && is(11, 0, 0, 0));
        break_last_mod();
        CHECK(read_into(0) == 8 && is(8, 0, count - 1, 12));
        break_last_line();
        CHECK(read_into(ROOM_LIST) == 10 && is(10, 0, (old ? 9 : 10) + count, 0));
        say_nops(old, count + 1);
        CHECK(read_into(ROOM_LIST) == 5 && is(5, 0, 0, 12));
        break_last_line();
        CHECK(read_into(ROOM_LIST) == 5 && is(5, 0, 0, 12));
    }
    say_nops(false, 1025);
    CHECK(read_into(ROOM_LIST) == 0 && outcome[O_LENGTH] == 6150);
    say_nops(true, 9999);
    CHECK(read_into(ROOM_LIST) == 5 && is(5, 0, 0, 12));

    /* The longest listing, and one longer. 4 before 5, and 5 before 7 to 9. */
    fresh();
    for (size_t i = 0; i < 16385; i++) put_insn(i, CONFIG, 65535, 0, 15, 15);
    CHECK(ind_write(settings, list, 98304, room, 737393, outcome) == 11 && is(11, 0, 0, 0));
    CHECK(ind_write(settings, list, 98304, room, 737394, outcome) == 0 && outcome[O_LENGTH] == 737394 && memcmp(room + 9 + 93, "count=16384\n", 12) == 0);
    list[0] = 99;
    CHECK(ind_write(settings, list, 98310, room, ROOM_TEXT, outcome) == 5 && is(5, 0, 0, 0) && outcome[O_LENGTH] == 0);
    CHECK(ind_write(settings, list, 98311, room, ROOM_TEXT, outcome) == 4 && ind_write(settings, list, 98309, room, ROOM_TEXT, outcome) == 4);
    CHECK(ind_write(settings, list, 98304, room, ROOM_TEXT, outcome) == 7 && is(7, 0, 0, 0));
    list[0] = CONFIG, list[6 * 16383 + F_MOD] = 16;
    CHECK(ind_write(settings, list, 98304, room, ROOM_TEXT, outcome) == 8 && is(8, 0, 16383, 0));

    /* 1,048,576 bytes are looked at, one more is not, in either format; 65,537 are no limit of the library's. */
    for (int old = 0; old < 2; old++) {
        say(old ? worked : rewritten);
        memset(text + text_len, 'x', sizeof text - text_len);
        text_len = 1048576;
        CHECK(reads(10, old ? 11 : 12, 0));
        text_len = 65537;
        CHECK(reads(10, old ? 11 : 12, 0));
        text_len = 1048577;
        CHECK(reads(11, 0, 0));
        memcpy(strstr(text, "count="), "COUNT=", 6);
        CHECK(reads(11, 0, 0));
        text_len = 1048576;
        CHECK(reads(10, old ? 9 : 10, 0));
    }
}

/* The program holds 1,024 instructions and 65,536 bytes, in either format. */
static void program(void)
{
    static char whole[ROOM_TEXT];

    say(worked);
    CHECK(rewrites(rewritten));
    for (int old = 0; old < 2; old++) {
        say_nops(false, 1024);
        memcpy(whole, text, text_len + 1);
        say_nops(old, 1024);
        CHECK(report("answer=0\nsteps=01024\nplace=00000\ncursor=0012\n") && rewrites(whole));
        break_last_mod();
        CHECK(report("answer=8\nsteps=00000\nplace=01023\ncursor=0012\n") && rewrites("answer=8\nsteps=00000\nplace=01023\ncursor=0012\n"));
        break_last_line();
        CHECK(report(old ? "answer=10\nsteps=00000\nplace=01033\ncursor=0000\n" : "answer=10\nsteps=00000\nplace=01034\ncursor=0000\n"));
    }

    /* One more: an old listing's count is too great, and for format 2 there is no room, after all else. */
    say_nops(true, 1025);
    CHECK(report("answer=5\nsteps=00000\nplace=00000\ncursor=0012\n") && rewrites("answer=5\nsteps=00000\nplace=00000\ncursor=0012\n"));
    say_nops(false, 1025);
    CHECK(report("answer=11\nsteps=00000\nplace=00000\ncursor=0000\n") && rewrites("answer=11\nsteps=00000\nplace=00000\ncursor=0000\n"));
    break_last_mod();
    CHECK(report("answer=8\nsteps=00000\nplace=01024\ncursor=0012\n"));
    break_last_line();
    CHECK(report("answer=10\nsteps=00000\nplace=01035\ncursor=0000\n"));
    say_nops(false, 1557), break_last_mod();            /* 114 and 1,557 times 42 are 65,508 bytes */
    CHECK(text_len == 65508 && report("answer=8\nsteps=00000\nplace=01556\ncursor=0012\n"));

    /* Too long, before anything else. */
    say_nops(false, 1558), break_last_mod();
    CHECK(report("answer=11\nsteps=00000\nplace=00000\ncursor=0000\n") && rewrites("answer=11\nsteps=00000\nplace=00000\ncursor=0000\n"));
    say_nops(false, 16384);
    CHECK(report("answer=11\nsteps=00000\nplace=00000\ncursor=0000\n"));
    for (int old = 0; old < 2; old++) {
        say(old ? worked : rewritten);
        memset(text + text_len, 'x', sizeof text - text_len);
        text_len = 65536;
        CHECK(report(old ? "answer=10\nsteps=00000\nplace=00011\ncursor=0000\n" : "answer=10\nsteps=00000\nplace=00012\ncursor=0000\n"));
        text_len = 65537;
        CHECK(report("answer=11\nsteps=00000\nplace=00000\ncursor=0000\n") && rewrites("answer=11\nsteps=00000\nplace=00000\ncursor=0000\n"));
    }
}

int ind_selftest(void)
{
    the_twelve();
    constants();
    order();
    tempting();
    more_lut();
    more_lane();
    stores();
    runs();
    runs_that_store();
    three_answers();
    which_lanes_tie();
    ties_over_a_list();
    counts_refused();
    stores_by_load();
    stores_by_swap();
    stores_by_config();
    stores_by_lut();
    stores_by_others();
    stores_over_a_list();
    beginnings();
    entries();
    both_ends();
    refused_steps();
    damaged_entries();
    walks_as_runs();
    listings();
    formats();
    limits();
    program();
    if (failures == 0) printf("selftest: all good\n");
    return failures == 0 ? 0 : 1;
}
