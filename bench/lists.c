#include "lists.h"

#include "../tests/independent/independent.h"

#include <string.h>

const uint32_t list_settings[8] = {2, 2, 17, 3, 4, 1, 64, 1023};
uint16_t list_dst[LIST_DST];

/* A list draws from all that its op allows, save where it says otherwise. Sets of numbers below 16 are strings of hexadecimal digits. */
#define STORED "01234567"
#define EVERY "0123456789ABCDEF"
static const struct shape {
    const char *name;
    uint32_t op;                /* 0: a mix, each op as likely as the others */
    uint32_t last;              /* the last op of a mix; 0: as for all lists */
    const char *mods, *vds;     /* NULL: the op's own */
    uint32_t config;            /* bits of LaneConfig that every lane has besides */
    bool alike;                 /* every register starts as 0 or 1.0, which 9 and 10 hold: many pairs are equal */
    size_t count;               /* 0: LIST_COUNT */
} shapes[] = {
    {"mix", .op = 0},
    {"mix, no STORE", .last = NOP},     /* the mix as it was before M-101: these figures compare with those of that time */
    {"LOAD", .op = LOAD}, {"LOADI", .op = LOADI}, {"LUT", .op = LUT}, {"SWAP", .op = SWAP}, {"CONFIG", .op = CONFIG}, {"IADD", .op = IADD},
    {"ABS", .op = ABS}, {"AND", .op = AND}, {"OR", .op = OR}, {"XOR", .op = XOR}, {"NOT", .op = NOT}, {"LZ", .op = LZ},
    {"EXEXP", .op = EXEXP}, {"EXMAN", .op = EXMAN}, {"NOP", .op = NOP}, {"STORE", .op = STORE},
    {"LOAD, BF16", .op = LOAD, .mods = "02"},   /* mod 0 is mod 2 under list_settings, as in the next list */
    {"LOAD mod 0", .op = LOAD, .mods = "0"}, {"LOAD mod 1", .op = LOAD, .mods = "1"}, {"LOAD mod 2", .op = LOAD, .mods = "2"},
    {"LOAD mod 5", .op = LOAD, .mods = "5"}, {"LOAD mod 6", .op = LOAD, .mods = "6"}, {"LOAD mod 7", .op = LOAD, .mods = "7"},
    {"LOAD mod 8", .op = LOAD, .mods = "8"}, {"LOAD mod 9", .op = LOAD, .mods = "9"}, {"LOAD mod 11", .op = LOAD, .mods = "B"},
    {"LOAD mod 13", .op = LOAD, .mods = "D"}, {"LOAD mod 14", .op = LOAD, .mods = "E"}, {"LOAD mod 15", .op = LOAD, .mods = "F"},
    {"STORE mod 2", .op = STORE, .mods = "2"}, {"STORE mod 6", .op = STORE, .mods = "6"}, {"STORE mod 7", .op = STORE, .mods = "7"},
    {"SWAP by index", .op = SWAP, .config = 1 << 2}, {"SWAP, ties", .op = SWAP, .alike = true},
    {"LUT mod 8", .op = LUT, .mods = "8"}, {"LUT mod 12", .op = LUT, .mods = "C"},
    {"CONFIG to 8", .op = CONFIG, .vds = "8"}, {"CONFIG to 15", .op = CONFIG, .vds = "F"},
    {"mix, vd to 15", .vds = EVERY},
    {"mix of 1", .count = 1}, {"mix of 16", .count = 16}, {"mix of 256", .count = 256}, {"mix of 16384", .count = LIST_MOST},
};

/* A small generator, so that every machine times the same lists. */
static uint64_t seed;

static uint32_t any(uint32_t below)
{
    seed ^= seed << 13, seed ^= seed >> 7, seed ^= seed << 17;
    return (uint32_t)((seed >> 32) % below);
}

static uint32_t word(void)
{
    uint32_t high = any(65536);
    return high << 16 | any(65536);
}

static uint32_t one_of(const char *digits)
{
    char digit = digits[any((uint32_t)strlen(digits))];
    return (uint32_t)(digit <= '9' ? digit - '0' : digit - 'A' + 10);
}

/* The mods that each op allows, and the limits of its imm, vb and vc. */
static const struct { const char *mods; uint32_t imm, vb, vc; } allowed[OPS] = {
    [LOAD] = {"01256789BDEF", 1024, 4, 1}, [LOADI] = {"8A", 65536, 1, 1}, [LUT] = {"048C", 1, 1, 1}, [SWAP] = {EVERY, 1, 1, 16},
    [CONFIG] = {EVERY, 65536, 1, 1}, [IADD] = {EVERY, 4096, 1, 16}, [ABS] = {"01", 1, 1, 16}, [AND] = {"01", 1, 16, 16},
    [OR] = {"01", 1, 16, 16}, [XOR] = {"0", 1, 1, 16}, [NOT] = {"0", 1, 1, 16}, [LZ] = {"02468ACE", 1, 1, 16},
    [EXEXP] = {"012389AB", 1, 1, 16}, [EXMAN] = {"01", 1, 1, 16}, [NOP] = {"0", 1, 1, 1}, [STORE] = {"2679", 1024, 4, 1},
};

/* An instruction with good fields. vd is a register that is stored, so that there is work to do, save for CONFIG, and for STORE, which reads
 * any. */
static void make_insn(const struct shape *s, uint32_t last, uint32_t insn[6])
{
    uint32_t op = s->op ? s->op : 1 + any(last), mod = one_of(s->mods ? s->mods : allowed[op].mods);
    insn[F_OP] = op;
    insn[F_IMM] = any(allowed[op].imm);
    insn[F_VB] = any((op == AND || op == OR) && mod == 0 ? 1 : allowed[op].vb);
    insn[F_VC] = any(allowed[op].vc);
    insn[F_VD] = one_of(op == NOP ? "0" : s->vds ? s->vds : op == CONFIG || op == STORE ? EVERY : STORED);
    insn[F_MOD] = mod;
}

/* A number from 1/8 to 8 of either sign. LUT's input starts so: some processors take a hundred times as long for a product that is too small
 * for a normal float, whoever asks for it. */
static uint32_t around_1(uint32_t word) { return (word & 0x80000000) | (0x3E000000 + word % 0x03000000); }

static void make_images(uint32_t images[IMAGE_KINDS][LIST_IMAGE], uint32_t config, bool alike)
{
    for (unsigned i = 0; i < LIST_IMAGE; i++) {
        uint32_t quiet = word(), mixed = word();
        switch (i / LANES) {
        case 3:           quiet = around_1(quiet), mixed = around_1(mixed); break;
        case SLOT_CONFIG: quiet = config, mixed = (any(4) == 0 ? any(512) & 0x13D : 0) | config; break;
        case SLOT_FLAG:
        case SLOT_USE:    quiet = 0, mixed = any(2); break;
        case SLOT_MISC:   quiet %= 4096, mixed %= 4096; break;
        }
        if (alike && i / LANES < SLOT_CONFIG) quiet = quiet % 2 * 0x3F800000, mixed = mixed % 2 * 0x3F800000;
        images[QUIET][i] = quiet, images[MIXED][i] = mixed;
    }
}

const struct list *make_list(unsigned k, uint32_t last)
{
    static struct list made;
    if (k >= sizeof shapes / sizeof *shapes) return NULL;
    const struct shape *s = &shapes[k];
    seed = 0x9E3779B97F4A7C15u;         /* the same images for all lists, and the short mixes begin the long one */
    make_images(made.image, s->config, s->alike);
    for (unsigned i = 0; i < LIST_DST; i++) list_dst[i] = (uint16_t)any(65536);
    made.name = s->name;
    made.narrow = s->last != 0 || s->mods != NULL || s->vds != NULL || s->config != 0 || s->alike;
    made.count = s->op > last ? 0 : s->count ? s->count : LIST_COUNT;
    if (s->last != 0 && s->last < last) last = s->last;
    for (unsigned i = 0; i < made.count; i++) make_insn(s, last, made.words + 6 * i);
    return &made;
}
