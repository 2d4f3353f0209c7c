/* The replay of document 01, written a second time: from the documents alone, so that it can be compared with the proved one.
 *
 *   checks.c    what is refused, and in which order
 *   machine.c   the functional models of documents 000 to 004, an instruction at a time
 *   walk.c      a list stepped through, forwards and backwards
 *   listing.c   listings read and written, and the report
 *   form.c      cases as bytes, both ways, in the form of tests/CASES.md
 *   cases.c     cases made from a seed
 *   answers.c   cases read, run and answered
 *   coverage.c  what a set of cases meets
 *   selftest.c  document 01's examples
 *   main.c      the commands
 */
#ifndef INDEPENDENT_H
#define INDEPENDENT_H

#include <stdbool.h>
#include <stddef.h>
#include <stdint.h>
#include <stdio.h>

enum { LANES = 32, COLUMNS = 8, SLOTS = 24, IMAGE_WORDS = 768, DST_CELLS = 16384 };

/* M-105: what the library takes, and what the program holds. */
enum { MAX_INSNS = 16384, TEXT_LIMIT = 1048576, PROGRAM_INSNS = 1024, PROGRAM_TEXT = 65536 };

/* OPS is the first number past them that is no op. */
enum { LOAD = 1, LOADI, LUT, SWAP, CONFIG, IADD, ABS, AND, OR, XOR, NOT, LZ, EXEXP, EXMAN, NOP, STORE, OPS };

/* The six words of an instruction, and the eight settings in the listing's order. */
enum { F_OP, F_IMM, F_VB, F_VC, F_VD, F_MOD };
enum { S_EDITION, S_SRCB, S_OFFSET, S_CURSOR, S_STRIDE0 };

/* A lane's 24 words; in the image, slot s of lane l is word 32 s + l. Registers 11 to 14 are slots 8 to 11. */
enum { SLOT_R11 = 8, SLOT_CONFIG = 12, SLOT_FLAG, SLOT_USE, SLOT_TEMPLATE, SLOT_SEQUENCE = 19, SLOT_MISC = 23 };

/* An outcome: four words, and then the ties and the stores to registers of a run, each column by column, or the length of reading and writing. */
enum { O_ANSWER, O_STEPS, O_PLACE, O_CURSOR, O_TIES, O_STORES = O_TIES + COLUMNS, RUN_OUTCOME = O_STORES + COLUMNS, O_LENGTH = O_TIES };

/* A walk: the steps done, and its cursor. An entry of its store: the image, the cursor, the address and 32 cells. */
enum { W_AT, W_CURSOR };
enum { E_CURSOR = IMAGE_WORDS, E_ADDRESS, E_CELLS, ENTRY = E_CELLS + LANES };

/* What a lent room holds where nothing was written yet. */
#define UNWRITTEN 2779096485u

/* checks.c */
bool ind_settings_good(const uint32_t settings[8]);
bool ind_slot_good(unsigned slot, uint32_t word);
bool ind_image_good(const uint32_t *image);                                         /* of IMAGE_WORDS */
bool ind_op_known(uint32_t op);
uint32_t ind_insn_fault(const uint32_t insn[6]);                                    /* 0, 7, 8 or 9 */
uint32_t ind_list_fault(const uint32_t *list, size_t count, uint32_t *place);       /* the first faulty instruction decides */
uint32_t ind_lent_fault(const uint32_t settings[8], const uint32_t *image, size_t image_len, size_t dst_len, size_t list_len);
uint32_t ind_run_fault(const uint32_t settings[8], const uint32_t *image, size_t image_len, size_t dst_len,
                       const uint32_t *list, size_t list_len, uint32_t *place);

/* machine.c */
float ind_float_of(uint32_t bits);
bool ind_is_nan(uint32_t bits);
uint32_t ind_run(const uint32_t settings[8], uint32_t *image, size_t image_len, uint16_t *dst, size_t dst_len,
                 const uint32_t *list, size_t list_len, uint32_t outcome[RUN_OUTCOME]);
uint32_t ind_lane(const uint32_t settings[8], uint32_t lane, const uint32_t insn[6], uint32_t own[24], const uint32_t head[24],
                  uint16_t cells[2]);                               /* the even one and the odd one */
uint32_t ind_stores(const uint32_t settings[8], uint32_t lane, const uint32_t insn[6], const uint32_t own[24],
                    const uint32_t head[24]);                       /* to registers, in one lane, all being in order */

/* walk.c: begin looks at no cell, and back writes nothing to the store */
uint32_t ind_begin(const uint32_t settings[8], const uint32_t *image, size_t image_len, size_t dst_len,
                   const uint32_t *list, size_t list_len, uint32_t outcome[4], uint32_t walk[2]);
uint32_t ind_forward(const uint32_t settings[8], uint32_t *image, size_t image_len, uint16_t *dst, size_t dst_len,
                     const uint32_t *list, size_t list_len, uint32_t *store, size_t store_len, uint32_t walk[2]);
uint32_t ind_back(const uint32_t settings[8], uint32_t *image, size_t image_len, uint16_t *dst, size_t dst_len,
                  const uint32_t *list, size_t list_len, const uint32_t *store, size_t store_len, uint32_t walk[2]);

/* listing.c: ind_replay and ind_rewrite are the program, which answers for a listing with its report, or with the listing anew */
extern const char *const ind_names[OPS];
uint32_t ind_read(const uint8_t *text, size_t text_len, uint32_t *list, size_t list_len, uint32_t settings[8], uint32_t outcome[5]);
uint32_t ind_write(const uint32_t settings[8], const uint32_t *list, size_t list_len, uint8_t *text, size_t text_len, uint32_t outcome[5]);
void ind_replay(FILE *in, FILE *out);
void ind_rewrite(FILE *in, FILE *out);

/* form.c: the largest sizes are in tests/CASES.md. */
enum { RUN_CASE = 1, LANE_CASE, WRITING_CASE, READING_CASE, WALK_CASE };
enum { ROOM_IMAGE = 1024, ROOM_DST = 16400, ROOM_LIST = 98400, ROOM_TEXT = 1048700, ROOM_STORE = 40 * ENTRY + 10 };
enum { FORWARD = 1, BACK, CHANGE_STORE, CHANGE_IMAGE, CHANGE_WALK, CHANGE_SETTING, CHANGE_LENGTHS, CALLS };

struct run_case {
    uint32_t settings[8], list[ROOM_LIST], image[ROOM_IMAGE];
    uint16_t dst[ROOM_DST];
    size_t list_len, image_len, dst_len;
};

struct lane_case {
    uint32_t settings[8], lane, insn[6], own[SLOTS], head[SLOTS];
    uint16_t cells[2];
};

struct writing_case {
    uint32_t settings[8], list[ROOM_LIST], outcome[5];
    size_t list_len, room;
    uint8_t text[ROOM_TEXT];                            /* the room afterwards, as far as it was lent */
};

struct reading_case {
    uint8_t text[ROOM_TEXT];
    size_t text_len, room;
};

/* A call of a walk, and its numbers. From CHANGE_STORE on it is none of the replay's, but what a host does to what it lends. */
struct call {
    uint32_t kind, n[4];
};

struct walk_case {
    struct run_case run;                                /* what is lent, but for the store */
    uint32_t store[ROOM_STORE], walk[2];
    size_t store_len;
    struct call *call;
    size_t calls, call_room;                            /* how many there are, and how many there is room for */
};

struct any_case {
    uint32_t kind;
    struct run_case run;
    struct lane_case lane;
    struct writing_case writing;
    struct reading_case reading;
    struct walk_case walk;
};

void ind_put(FILE *out, uint32_t n);
bool ind_next(FILE *from, struct any_case *c);          /* whether there is one more; what is written is kept for the readings after it */
bool ind_call(struct walk_case *w, const struct call *c, uint32_t *answer);     /* whether it is a step, which answers */

/* cases.c */
void ind_cases(uint32_t seed, uint32_t runs, uint32_t lanes, uint32_t listings, uint32_t walks, FILE *out);

/* answers.c */
void ind_answers(FILE *in, FILE *out);
bool ind_show(FILE *in, uint32_t line, FILE *out);      /* the case of that line of the answers, from 1 */

/* coverage.c, selftest.c */
void ind_coverage(FILE *in, FILE *out);
int ind_selftest(void);

#endif
