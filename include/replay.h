/* The replay for C and C++. bin/install makes libreplay.a and libreplay.so, for x86-64; replay_text.h has names to print.
 *
 * Everything is lent by the caller. The library keeps nothing between calls, allocates nothing, and writes only to what is passed without
 * `const`. Parts lent to one call must not overlap. Calls that share nothing writable, no Dst either, may run at the same time. Of the
 * stack a report takes less than 80 KB, and every other call less than 4 KB, however long its list or its listing is.
 *
 * Pointers. A length counts elements, not bytes. A part that comes with a length may be NULL where that length is 0, as the data() of an
 * empty std::vector often is: nothing is read or written through it. Every other pointer (settings, outcome, walk, insn, own, head,
 * cells, length) has no length and is never NULL.
 *
 * Each function but the last three returns the answer: REPLAY_DONE if all was done, else the number of the refusal. */
#ifndef REPLAY_H
#define REPLAY_H

#include <stddef.h>
#include <stdint.h>

#ifdef __cplusplus
extern "C" {
#endif

/* What is replayed: 1000 is document 01 by itself, and 1000 plus n is with the requests up to M-n. A later request may change what a word
 * means, so a host that loads the library at run time compares this with replay_version(). */
#define REPLAY_VERSION 1106

/* The words of an image, the cells of a Dst, the words of a walk's entry, of a run's outcome and of the longest list, and the bytes of the
 * longest listing and report. */
#define REPLAY_IMAGE 768
#define REPLAY_DST 16384
#define REPLAY_ENTRY 802
#define REPLAY_OUTCOME 20
#define REPLAY_LIST 98304
#define REPLAY_TEXT 737394
#define REPLAY_REPORT 11190

/* The lanes of a register, and their columns; lane L is in row L / 8, column L % 8. */
#define REPLAY_LANES 32
#define REPLAY_COLUMNS 8

/* Answers, the clerk's numbers. */
enum replay_answer {
    REPLAY_DONE = 0,
    REPLAY_BAD_IMAGE_LENGTH = 1,        /* image not 768 words */
    REPLAY_BAD_DST_LENGTH = 2,          /* Dst not 16,384 cells */
    REPLAY_BAD_SETTING = 3,             /* a setting outside its range */
    REPLAY_BAD_LIST_LENGTH = 4,         /* list length not a multiple of six */
    REPLAY_TOO_MANY = 5,                /* more than 16,384 instructions, in an old listing more than 1,024 */
    REPLAY_BAD_IMAGE = 6,               /* image not well formed */
    REPLAY_UNKNOWN_OP = 7,              /* unknown op */
    REPLAY_BAD_FIELD = 8,               /* a field outside its range, an unused field not 0, or mod not allowed */
    REPLAY_BAD_LOAD_MOD = 9,            /* LOAD mod 3, 4, 10 or 12 */
    REPLAY_BAD_TEXT = 10,               /* listing text faulty */
    REPLAY_TOO_LONG = 11,               /* listing over 1,048,576 bytes, in the program over 65,536, or room too short */
    REPLAY_NO_STEP = 12                 /* step forward from the end or with fewer than 802 free words in the store, or back from the start */
};

enum replay_op {
    REPLAY_OP_LOAD = 1,
    REPLAY_OP_LOADI = 2,
    REPLAY_OP_LUT = 3,
    REPLAY_OP_SWAP = 4,
    REPLAY_OP_CONFIG = 5,
    REPLAY_OP_IADD = 6,
    REPLAY_OP_ABS = 7,
    REPLAY_OP_AND = 8,
    REPLAY_OP_OR = 9,
    REPLAY_OP_XOR = 10,
    REPLAY_OP_NOT = 11,
    REPLAY_OP_LZ = 12,
    REPLAY_OP_EXEXP = 13,
    REPLAY_OP_EXMAN = 14,
    REPLAY_OP_NOP = 15,
    REPLAY_OP_STORE = 16
};

/* The six words of an instruction. */
enum replay_insn {
    REPLAY_INSN_OP = 0,
    REPLAY_INSN_IMM = 1,
    REPLAY_INSN_VB = 2,
    REPLAY_INSN_VC = 3,
    REPLAY_INSN_VD = 4,
    REPLAY_INSN_MOD = 5
};

/* The eight settings: edition and srcb are 1 or 2, the others 0 to 1023. */
enum replay_setting {
    REPLAY_SETTING_EDITION = 0,
    REPLAY_SETTING_SRCB = 1,
    REPLAY_SETTING_OFFSET = 2,
    REPLAY_SETTING_CURSOR = 3,
    REPLAY_SETTING_STRIDE0 = 4,
    REPLAY_SETTING_STRIDE1 = 5,
    REPLAY_SETTING_STRIDE2 = 6,
    REPLAY_SETTING_STRIDE3 = 7
};

/* The words of an outcome: a run's are REPLAY_OUTCOME, reading's and writing's 5, and those of a walk's start 4. */
enum replay_outcome {
    REPLAY_OUTCOME_ANSWER = 0,
    REPLAY_OUTCOME_STEPS = 1,
    REPLAY_OUTCOME_PLACE = 2,
    REPLAY_OUTCOME_CURSOR = 3,
    REPLAY_OUTCOME_TIES = 4,            /* of a run: eight words, column 0 first */
    REPLAY_OUTCOME_STORES = 12,         /* of a run: eight words, column 0 first */
    REPLAY_OUTCOME_LENGTH = 4           /* of reading and writing */
};

/* Where each part of an image begins, 32 words each, lane 0 first. The 24 words of one lane are in the same order: slot AT / 32. */
enum replay_at {
    REPLAY_AT_REGISTER_0 = 0,
    REPLAY_AT_REGISTER_1 = 32,
    REPLAY_AT_REGISTER_2 = 64,
    REPLAY_AT_REGISTER_3 = 96,
    REPLAY_AT_REGISTER_4 = 128,
    REPLAY_AT_REGISTER_5 = 160,
    REPLAY_AT_REGISTER_6 = 192,
    REPLAY_AT_REGISTER_7 = 224,
    REPLAY_AT_REGISTER_11 = 256,
    REPLAY_AT_REGISTER_12 = 288,
    REPLAY_AT_REGISTER_13 = 320,
    REPLAY_AT_REGISTER_14 = 352,
    REPLAY_AT_LANE_CONFIG = 384,        /* each below 2^18 */
    REPLAY_AT_LANE_FLAGS = 416,         /* each 0 or 1 */
    REPLAY_AT_USE_FLAGS = 448,          /* each 0 or 1 */
    REPLAY_AT_TEMPLATE_0 = 480,
    REPLAY_AT_TEMPLATE_1 = 512,
    REPLAY_AT_TEMPLATE_2 = 544,
    REPLAY_AT_TEMPLATE_3 = 576,
    REPLAY_AT_SEQUENCE_0 = 608,
    REPLAY_AT_SEQUENCE_1 = 640,
    REPLAY_AT_SEQUENCE_2 = 672,
    REPLAY_AT_SEQUENCE_3 = 704,
    REPLAY_AT_MISC = 736                /* each below 2^12 */
};

/* The two words of a walk. */
enum replay_walk {
    REPLAY_WALK_AT = 0,                 /* how many steps are done, which is also the index of the instruction that comes next */
    REPLAY_WALK_CURSOR = 1
};

/* Where each part of an entry begins. Entry k of a store begins at word REPLAY_ENTRY * k, and has what there was before instruction k. */
enum replay_entry {
    REPLAY_ENTRY_IMAGE = 0,             /* 768 words, by enum replay_at */
    REPLAY_ENTRY_CURSOR = 768,
    REPLAY_ENTRY_ADDRESS = 769,         /* the instruction's, 0 to 1023 */
    REPLAY_ENTRY_CELLS = 770            /* of a STORE, the 32 cells that it could overwrite, lane 0 first; of another op, zeros */
};

/* Runs a list over an image and a Dst.
 *
 *   settings  by enum replay_setting
 *   image     768 words, by enum replay_at
 *   dst       16,384 cells, row by row, 16 in a row; LOAD reads it and STORE writes it
 *   list      six words an instruction, by enum replay_insn
 *   outcome   answer, steps, place, cursor, the ties of columns 0 to 7, and the stores of columns 0 to 7
 *
 * Done: image and Dst are those after the list, steps is the number of instructions, place 0, and cursor the final one. The ties of a
 * column are counted over the list: in each SWAP with mod other than 0, each of its four lanes that is enabled, acts (vd is below 12, or
 * bit 4 of its LaneConfig is set) and holds one and the same word in vc and vd. Lanes count as they are before the instruction; vc and vd
 * may be the same register.
 * The stores of a column are counted over the list too: every store that the rules make to registers 0 to 7 and 11 to 14 of its four lanes,
 * also of a word that is there already; to the same word twice counts twice. An instruction makes at most one in a lane, but for two ops: LOAD
 * makes a second where it captures the place; a SWAP that swaps makes one to each of vc and vd that it may store to and, with bit 2 set, two
 * more for the exchange of the index registers, in either case also where the two are one register. So a column has at most 16 for each
 * instruction. Flags, LaneConfig, Misc, templates, sequences and the cells of Dst are no registers, and what is stored there isn't counted.
 * Refused, by 1 to 9: image and Dst are untouched, steps is 0, cursor the one given, place the index of the instruction from 0 for 7 to 9,
 * else 0, and all eight ties and all eight stores are 0. */
uint32_t replay_run(const uint32_t settings[8], uint32_t *image, size_t image_len, uint16_t *dst, size_t dst_len,
                    const uint32_t *list, size_t list_len, uint32_t outcome[REPLAY_OUTCOME]);

/* Begins a walk: a list run one instruction at a time, forward and back, so that a host sees image and Dst in between.
 *
 *   settings, image, dst, list  as for a run, and only read
 *   outcome   answer, steps, place, cursor
 *   walk      becomes where the walk stands, by enum replay_walk
 *
 * Done: the walk is at 0, with the cursor given, which is also the outcome's; steps and place are 0.
 * Refused, by 1 to 9 as a run is: `walk` is untouched, and the outcome is the run's but for ties and stores. */
uint32_t replay_begin(const uint32_t settings[8], const uint32_t *image, size_t image_len, const uint16_t *dst, size_t dst_len,
                      const uint32_t *list, size_t list_len, uint32_t outcome[4], uint32_t walk[2]);

/* A step of a walk: forward, over the instruction that comes next, or back, over the last one.
 *
 *   settings, list    as replay_begin was lent them; the cursor is the walk's from then on
 *   image, dst, walk  as the call before left them
 *   store             room for the entries: REPLAY_ENTRY words an instruction are always enough, 13,139,968 for the longest list
 *
 * Done, forward: image and Dst are those after instruction `at`, whose entry is in the store, and the other words of the store stay; the walk
 * is at `at` + 1, with the new cursor.
 * Done, back: image, cursor and, if instruction `at` - 1 is a STORE, the 32 cells are those of entry `at` - 1, and the walk is at `at` - 1.
 * The store's words stay; the next step forward uses that entry's room again.
 * Refused: image, Dst, store and walk are untouched. 1 to 6 are tried first, as of a run, and 3 is also for a walk's cursor above 1023. Then
 * 12 is for a step forward if `at` is not below the number of instructions, or the store has fewer than REPLAY_ENTRY * (`at` + 1) words; and
 * for a step back if `at` is 0 or above the number of instructions, or the store has fewer than REPLAY_ENTRY * `at` words. Then come 7 to 9,
 * of instruction `at`, for a step forward.
 *
 * After n steps forward and m back that were done, in any order, image, Dst and cursor are those of n - m steps forward, and no refusal is
 * met but 12, if the walk began well and the host changes nothing that it lent between calls. An entry that it changed is taken as it stands,
 * image and cursor as they are (the step after it refuses by 6 or 3 what can't be), the address mod 1024 and a cell mod 65,536. Steps count
 * neither ties nor stores. */
uint32_t replay_forward(const uint32_t settings[8], uint32_t *image, size_t image_len, uint16_t *dst, size_t dst_len,
                        const uint32_t *list, size_t list_len, uint32_t *store, size_t store_len, uint32_t walk[2]);
uint32_t replay_back(const uint32_t settings[8], uint32_t *image, size_t image_len, uint16_t *dst, size_t dst_len,
                     const uint32_t *list, size_t list_len, uint32_t *store, size_t store_len, uint32_t walk[2]);

/* One instruction in one lane.
 *
 *   settings  as for a run
 *   lane      0 to 31
 *   insn      op, imm, vb, vc, vd, mod
 *   own       the lane's 24 words, in the image's order: its word of each register and of each part that follows
 *   head      the 24 words of row 0's lane of the same column (for a lane of row 0, a copy of its own)
 *   cells     the two cells of the lane's row and column in Dst at the instruction's address, the even one and the odd one
 *
 * Done: `own` and `cells` are the lane's words and the two cells after the instruction. The cursor is the caller's: after a LOAD or a STORE
 * it is (cursor + stride vb) mod 1024.
 * Refused, by 3, 6, 7, 8 (also a lane above 31) or 9: `own` and `cells` are untouched. */
uint32_t replay_lane(const uint32_t settings[8], uint32_t lane, const uint32_t insn[6], uint32_t own[24], const uint32_t head[24],
                     uint16_t cells[2]);

/* Reads a listing, of format 2 or an old one. A text whose first line is format=2, with its LF, is of format 2: its count has five digits, and
 * its limit is 16,384 instructions. Any other text is read as an old listing, which has no such line: its count has four digits, and its
 * limit is 1,024. All ops may stand in either.
 *
 *   text      the listing, at most 1,048,576 bytes
 *   list      room for six words an instruction: REPLAY_LIST words are always enough, and so are six for each line of the text
 *   settings  becomes the listing's settings, in its order
 *   outcome   answer, steps, place, cursor, length
 *
 * Done: the first `length` words of `list` are the list, and the words past them stay; steps and place are 0, and cursor is the listing's.
 * Refused, by 3, 5 (the format's limit), 8, 9, 10 or 11: `list` is untouched and length is 0. settings is 0 but for the cursor, which is also
 * the outcome's: as read for 3, 5, 8 and 9, else 0. place is the index of the instruction from 0 for 8 and 9; for 10 it is the line from 1
 * in the text as it stands, where the instructions begin at line 11 of format 2 and at line 10 of an old listing; else 0. */
uint32_t replay_read(const uint8_t *text, size_t text_len, uint32_t *list, size_t list_len, uint32_t settings[8], uint32_t outcome[5]);

/* Writes a listing, always of format 2. What was read from format 2 is written byte for byte again; what was read from an old listing is
 * written as its rewritten form, which reads to the same settings and list.
 *
 *   settings  as for a run
 *   list      six words an instruction
 *   text      room for the whole listing: REPLAY_TEXT bytes are always enough, and so are 114 and 45 for each instruction
 *   outcome   answer, steps, place, cursor, length
 *
 * Done: the first `length` bytes of `text` are the listing, with no zero after it, and the bytes past them stay; steps and place are 0, and
 * cursor is the one given.
 * Refused, by 3, 4, 5, 7, 8, 9 or 11: `text` is untouched and length is 0. place is the index of the instruction from 0 for 7 to 9, else 0;
 * cursor is the one given, for 11 it is 0. */
uint32_t replay_write(const uint32_t settings[8], const uint32_t *list, size_t list_len, uint8_t *text, size_t text_len, uint32_t outcome[5]);

/* The program's whole output for a listing, which it runs from an image and a Dst of zeros. The program holds less than the library: a text
 * over 65,536 bytes, of either format, is refused by 11 before anything else, and a list of more than 1,024 instructions, which only format 2
 * can have, by 11 last of all. An old listing's count above 1,024 is refused by 5.
 *
 *   text      the listing, of format 2 or an old one
 *   room      room for the report: REPLAY_REPORT bytes are always enough
 *   length    becomes the bytes of the report
 *
 * The first `length` bytes of `room` are the report, with no zero after it, and the bytes past them stay. The answer is the one in the
 * report, which may be a refusal by 3, 5, 8, 9, 10 or 11.
 * Where the room is too short for it, the answer is 11, length is 0 and `room` is untouched. */
uint32_t replay_report(const uint8_t *text, size_t text_len, uint8_t *room, size_t room_len, size_t *length);

/* A stored register's lanes in an image of image_len words: the index of the first word, and how many there are, lane 0 first. 32 words
 * for registers 0 to 7 and 11 to 14; for any other register, or an image not 768 words long, none, at 0. */
size_t replay_register_start(size_t image_len, uint32_t reg);
size_t replay_register_count(size_t image_len, uint32_t reg);

/* The REPLAY_VERSION of the library. */
uint32_t replay_version(void);

#ifdef __cplusplus
}
#endif

#endif
