/* The library as a host meets it, in the common part of C11 and C++17, with POSIX threads and gcc's word for where a frame lies: tests/library
 * compiles and runs it, one topic a run.
 *
 * A topic ends with status 0 if all holds; else what does not is printed. `names` prints the names for the script to compare. */
#ifndef _GNU_SOURCE
#define _POSIX_C_SOURCE 200809L /* for threads with a stack that is lent */
#endif

#include "replay.h"
#include "replay_text.h"

#include <pthread.h>
#include <stdio.h>
#include <stdlib.h>
#include <string.h>

/* The most instructions of a list, and what an old listing and the program hold; the most bytes of a text, for the library and the program. */
enum { LAST_OP = REPLAY_OP_STORE, LAST_ANSWER = REPLAY_NO_STEP, LONGEST = REPLAY_LIST / 6, FEW = 1024, BYTES = 1048576, FEW_BYTES = 65536 };

/* The bytes of stack that the header allows a call, and a report. */
enum { STACK = 4 * 1024, REPORT_STACK = 80 * 1024 };

/* The outcome has room for a run's, and four words past it that no call may write; reading and writing take the first five words, and the
 * start of a walk the first four. Of the entries a topic has the first `lent` words. */
static uint32_t image[REPLAY_IMAGE], list[REPLAY_LIST], settings[8], outcome[REPLAY_OUTCOME + 4], walk[2], entries[REPLAY_ENTRY * LONGEST];
static uint16_t dst[REPLAY_DST];
static uint8_t text[BYTES + 1], room[REPLAY_REPORT + 1];
static size_t lent;
static int failures;

static void expect(int holds, const char *what, unsigned n)
{
    if (holds) return;
    failures++;
    printf("does not hold: %s (%u)\n", what, n);
}

static void start(void)
{
    memset(image, 0, sizeof image);
    memset(dst, 0, sizeof dst);
    memset(settings, 0, sizeof settings);
    settings[REPLAY_SETTING_EDITION] = 1;
    settings[REPLAY_SETTING_SRCB] = 2;
}

/* So that a word of the outcome that a call does not write is seen. */
static void poison(void) { memset(outcome, 0xA5, sizeof outcome); }

static int untouched(unsigned from)
{
    for (unsigned i = from; i < sizeof outcome / sizeof *outcome; i++)
        if (outcome[i] != 0xA5A5A5A5) return 0;
    return 1;
}

static int is_painted(const void *part, size_t bytes)
{
    const uint8_t *byte = (const uint8_t *)part;
    while (bytes > 0 && byte[bytes - 1] == 0xA5) bytes--;
    return bytes == 0;
}

static uint32_t run_one(uint32_t op, uint32_t imm, uint32_t vc, uint32_t vd, uint32_t mod)
{
    uint32_t insn[6] = {0};
    insn[REPLAY_INSN_OP] = op;
    insn[REPLAY_INSN_IMM] = imm;
    insn[REPLAY_INSN_VC] = vc;
    insn[REPLAY_INSN_VD] = vd;
    insn[REPLAY_INSN_MOD] = mod;
    return replay_run(settings, image, REPLAY_IMAGE, dst, REPLAY_DST, insn, 6, outcome);
}

static void version(void)
{
    expect(replay_version() == REPLAY_VERSION, "the library's version is the header's", replay_version());
}

/* Each op's name stands in the listing of an instruction of that op, and the listing gives the op back. */
static void ops(void)
{
    char line[32];
    start();
    for (uint32_t op = REPLAY_OP_LOAD; op <= LAST_OP; op++) {
        uint32_t insn[6] = {0};
        insn[REPLAY_INSN_OP] = op;
        insn[REPLAY_INSN_MOD] = op == REPLAY_OP_LOADI ? 8 : op == REPLAY_OP_STORE ? 2 : 0;
        expect(replay_write(settings, insn, 6, text, REPLAY_TEXT - 1, outcome) == REPLAY_DONE, "written", op);
        text[outcome[REPLAY_OUTCOME_LENGTH]] = 0;
        snprintf(line, sizeof line, "\nop=%s imm=", replay_op_name(op));
        expect(strstr((const char *)text, line) != NULL, "its name is in the listing", op);
        expect(replay_read(text, outcome[REPLAY_OUTCOME_LENGTH], list, REPLAY_LIST, settings, outcome) == REPLAY_DONE, "read", op);
        expect(outcome[REPLAY_OUTCOME_LENGTH] == 6 && memcmp(list, insn, sizeof insn) == 0, "and is what was written", op);
    }
    expect(strcmp(replay_op_name(0), "unknown") == 0 && strcmp(replay_op_name(LAST_OP + 1), "unknown") == 0, "no name past the ops", 0);
    expect(run_one(0, 0, 0, 0, 0) == REPLAY_UNKNOWN_OP && run_one(LAST_OP + 1, 0, 0, 0, 0) == REPLAY_UNKNOWN_OP, "no op past the names", 0);
}

/* Each answer that a host can be given, by a call that is to get it. */
static void answers(void)
{
    static const uint32_t nops[REPLAY_LIST + 6] = {REPLAY_OP_NOP};
    start();
    expect(run_one(REPLAY_OP_NOP, 0, 0, 0, 0) == REPLAY_DONE, "done", 0);
    expect(replay_run(settings, image, REPLAY_IMAGE - 1, dst, REPLAY_DST, nops, 6, outcome) == REPLAY_BAD_IMAGE_LENGTH, "image length", 1);
    expect(replay_run(settings, image, REPLAY_IMAGE, dst, REPLAY_DST - 1, nops, 6, outcome) == REPLAY_BAD_DST_LENGTH, "Dst length", 2);
    expect(replay_run(settings, image, REPLAY_IMAGE, dst, REPLAY_DST, nops, 5, outcome) == REPLAY_BAD_LIST_LENGTH, "list length", 4);
    expect(replay_run(settings, image, REPLAY_IMAGE, dst, REPLAY_DST, nops, REPLAY_LIST + 6, outcome) == REPLAY_TOO_MANY, "too many", 5);
    expect(run_one(LAST_OP + 1, 0, 0, 0, 0) == REPLAY_UNKNOWN_OP, "op", 7);
    expect(run_one(REPLAY_OP_NOP, 1, 0, 0, 0) == REPLAY_BAD_FIELD, "field", 8);
    expect(run_one(REPLAY_OP_LOAD, 0, 0, 0, 3) == REPLAY_BAD_LOAD_MOD, "LOAD mod", 9);
    expect(replay_read((const uint8_t *)"\n", 1, list, REPLAY_LIST, settings, outcome) == REPLAY_BAD_TEXT, "text", 10);
    start();
    expect(replay_write(settings, nops, 6, text, 10, outcome) == REPLAY_TOO_LONG, "room", 11);
    expect(replay_begin(settings, image, REPLAY_IMAGE, dst, REPLAY_DST, nops, 6, outcome, walk) == REPLAY_DONE, "begun", 0);
    expect(replay_back(settings, image, REPLAY_IMAGE, dst, REPLAY_DST, nops, 6, entries, REPLAY_ENTRY, walk) == REPLAY_NO_STEP, "step", 12);
    settings[REPLAY_SETTING_EDITION] = 3;
    expect(run_one(REPLAY_OP_NOP, 0, 0, 0, 0) == REPLAY_BAD_SETTING, "setting", 3);
}

/* The words of settings, instruction and outcome are where the header says. */
static void words(void)
{
    static const char listing[] = "format=2\nedition=2\nsrcb=1\noffset=0003\ncursor=0004\nstride0=0005\nstride1=0006\nstride2=0007\nstride3=0008\n"
                                  "count=00002\nop=LOAD imm=00012 vb=01 vc=00 vd=00 mod=02\nop=AND imm=00000 vb=09 vc=10 vd=11 mod=01\n";
    poison();
    expect(replay_read((const uint8_t *)listing, strlen(listing), list, REPLAY_LIST, settings, outcome) == REPLAY_DONE, "read", 0);
    expect(untouched(REPLAY_OUTCOME_LENGTH + 1), "five words of reading", 0);
    expect(settings[REPLAY_SETTING_EDITION] == 2 && settings[REPLAY_SETTING_SRCB] == 1 && settings[REPLAY_SETTING_OFFSET] == 3 &&
           settings[REPLAY_SETTING_CURSOR] == 4 && settings[REPLAY_SETTING_STRIDE0] == 5 && settings[REPLAY_SETTING_STRIDE1] == 6 &&
           settings[REPLAY_SETTING_STRIDE2] == 7 && settings[REPLAY_SETTING_STRIDE3] == 8, "settings", 0);
    expect(outcome[REPLAY_OUTCOME_CURSOR] == 4 && outcome[REPLAY_OUTCOME_LENGTH] == 12, "the outcome of reading", 0);
    uint32_t *second = list + 6;
    expect(list[REPLAY_INSN_IMM] == 12 && second[REPLAY_INSN_OP] == REPLAY_OP_AND && second[REPLAY_INSN_VB] == 9 && second[REPLAY_INSN_VC] == 10 &&
           second[REPLAY_INSN_VD] == 11 && second[REPLAY_INSN_MOD] == 1, "instructions", 0);
    poison();
    expect(replay_write(settings, list, 12, text, REPLAY_TEXT, outcome) == REPLAY_DONE, "written", 0);
    expect(outcome[REPLAY_OUTCOME_CURSOR] == 4 && outcome[REPLAY_OUTCOME_LENGTH] == strlen(listing), "the outcome of writing", 0);
    expect(untouched(REPLAY_OUTCOME_LENGTH + 1), "five words of writing", 0);
    expect(replay_run(settings, image, REPLAY_IMAGE, dst, REPLAY_DST, list, 12, outcome) == REPLAY_DONE, "run", 0);
    expect(outcome[REPLAY_OUTCOME_ANSWER] == 0 && outcome[REPLAY_OUTCOME_STEPS] == 2 && outcome[REPLAY_OUTCOME_PLACE] == 0 &&
           outcome[REPLAY_OUTCOME_CURSOR] == 10 && outcome[REPLAY_OUTCOME_TIES] == 0 && outcome[REPLAY_OUTCOME_STORES] == 4, "the outcome of a run", 0);
    second[REPLAY_INSN_MOD] = 2;
    expect(replay_run(settings, image, REPLAY_IMAGE, dst, REPLAY_DST, list, 12, outcome) == REPLAY_BAD_FIELD, "refused", 0);
    expect(outcome[REPLAY_OUTCOME_ANSWER] == 8 && outcome[REPLAY_OUTCOME_STEPS] == 0 && outcome[REPLAY_OUTCOME_PLACE] == 1 &&
           outcome[REPLAY_OUTCOME_CURSOR] == 4, "the outcome of a refusal", 0);
}

/* The rooms that the header calls enough are enough for the longest list, listing and report; in a word or a byte less, nothing. */
static void sizes(void)
{
    static const uint32_t registers[12] = {0, 1, 2, 3, 4, 5, 6, 7, 11, 12, 13, 14};
    static uint8_t again[REPLAY_TEXT];
    size_t length = 0;
    start();
    for (size_t i = 0; i < REPLAY_LIST; i += 6) {
        uint32_t vd = registers[i / 6 % 12];
        list[i + REPLAY_INSN_OP] = vd < 8 ? REPLAY_OP_LOADI : REPLAY_OP_CONFIG;
        list[i + REPLAY_INSN_IMM] = 1;
        list[i + REPLAY_INSN_VB] = list[i + REPLAY_INSN_VC] = 0;
        list[i + REPLAY_INSN_VD] = vd;
        list[i + REPLAY_INSN_MOD] = vd < 8 ? 8 : 1;
    }
    expect(replay_write(settings, list, 6 * FEW, text, REPLAY_TEXT, outcome) == REPLAY_DONE, "written", outcome[REPLAY_OUTCOME_LENGTH]);
    expect(replay_report(text, outcome[REPLAY_OUTCOME_LENGTH], room, REPLAY_REPORT, &length) == REPLAY_DONE, "every word reported", (unsigned)length);
    for (size_t i = 0; i < REPLAY_LIST; i += 6) {
        list[i + REPLAY_INSN_OP] = REPLAY_OP_CONFIG;    /* the longest name */
        list[i + REPLAY_INSN_MOD] = 1;
    }
    settings[REPLAY_SETTING_CURSOR] = 5;
    memset(text, 0xA5, sizeof text);
    expect(replay_write(settings, list, REPLAY_LIST, text, REPLAY_TEXT - 1, outcome) == REPLAY_TOO_LONG, "a byte too short", 11);
    expect(outcome[REPLAY_OUTCOME_LENGTH] == 0 && outcome[REPLAY_OUTCOME_CURSOR] == 0 && is_painted(text, sizeof text), "and nothing written", 11);
    expect(replay_write(settings, list, REPLAY_LIST, text, REPLAY_TEXT, outcome) == REPLAY_DONE, "the longest written", outcome[REPLAY_OUTCOME_ANSWER]);
    expect(outcome[REPLAY_OUTCOME_LENGTH] == REPLAY_TEXT && outcome[REPLAY_OUTCOME_CURSOR] == 5, "and is that long", outcome[REPLAY_OUTCOME_LENGTH]);
    expect(is_painted(text + REPLAY_TEXT, sizeof text - REPLAY_TEXT), "the bytes past it stay", 0);
    memset(list, 0xA5, sizeof list);
    expect(replay_read(text, REPLAY_TEXT, list, REPLAY_LIST - 1, settings, outcome) == REPLAY_TOO_LONG, "a word too short", 11);
    expect(outcome[REPLAY_OUTCOME_LENGTH] == 0 && outcome[REPLAY_OUTCOME_CURSOR] == 0 && is_painted(list, sizeof list), "and nothing read", 11);
    expect(replay_read(text, REPLAY_TEXT, list, REPLAY_LIST, settings, outcome) == REPLAY_DONE, "and read", outcome[REPLAY_OUTCOME_ANSWER]);
    expect(outcome[REPLAY_OUTCOME_LENGTH] == REPLAY_LIST, "to a list that long", outcome[REPLAY_OUTCOME_LENGTH]);
    expect(replay_write(settings, list, REPLAY_LIST, again, REPLAY_TEXT, outcome) == REPLAY_DONE, "and written again", outcome[REPLAY_OUTCOME_ANSWER]);
    expect(memcmp(text, again, REPLAY_TEXT) == 0, "byte for byte", 0);
}

static void expect_outcome(uint32_t answer, uint32_t count, uint32_t place, uint32_t cursor, const char *what)
{
    expect(outcome[REPLAY_OUTCOME_ANSWER] == answer && outcome[REPLAY_OUTCOME_STEPS] == count && outcome[REPLAY_OUTCOME_PLACE] == place &&
           outcome[REPLAY_OUTCOME_CURSOR] == cursor, what, answer);
}

/* A run, a walk and a listing take 16,384 instructions and no more; a length that is not a multiple of six comes before that. */
static void limits(void)
{
    static const size_t given[5] = {REPLAY_LIST - 6, REPLAY_LIST, REPLAY_LIST + 6, REPLAY_LIST + 5, REPLAY_LIST + 7};
    static const uint32_t wanted[5] = {REPLAY_DONE, REPLAY_DONE, REPLAY_TOO_MANY, REPLAY_BAD_LIST_LENGTH, REPLAY_BAD_LIST_LENGTH};
    static uint32_t words[REPLAY_LIST + 12];
    start();
    settings[REPLAY_SETTING_CURSOR] = 5;
    for (unsigned k = 0; k < LONGEST + 2; k++) words[6 * k + REPLAY_INSN_OP] = REPLAY_OP_NOP;
    for (unsigned i = 0; i < 5; i++) {
        uint32_t answer = wanted[i], count = answer == REPLAY_DONE ? (uint32_t)(given[i] / 6) : 0;
        expect(replay_run(settings, image, REPLAY_IMAGE, dst, REPLAY_DST, words, given[i], outcome) == answer, "a run", i);
        expect_outcome(answer, count, 0, 5, "its outcome");
        walk[REPLAY_WALK_AT] = 7;
        expect(replay_begin(settings, image, REPLAY_IMAGE, dst, REPLAY_DST, words, given[i], outcome, walk) == answer, "a walk", i);
        expect_outcome(answer, 0, 0, 5, "its start's outcome");
        expect(walk[REPLAY_WALK_AT] == (answer == REPLAY_DONE ? 0 : 7), "and where it stands", i);
        memset(text, 0xA5, sizeof text);
        expect(replay_write(settings, words, given[i], text, sizeof text, outcome) == answer, "a listing", i);
        expect_outcome(answer, 0, 0, 5, "its outcome");
        expect(outcome[REPLAY_OUTCOME_LENGTH] == (answer == REPLAY_DONE ? 114 + 42 * count : 0), "its length", i);
        expect(answer == REPLAY_DONE || is_painted(text, sizeof text), "a refusal leaves the text", i);
    }
    words[REPLAY_LIST - 6 + REPLAY_INSN_IMM] = 1;
    expect(replay_run(settings, image, REPLAY_IMAGE, dst, REPLAY_DST, words, REPLAY_LIST, outcome) == REPLAY_BAD_FIELD, "the last instruction of a run", 8);
    expect_outcome(REPLAY_BAD_FIELD, 0, LONGEST - 1, 5, "its place");
    expect(replay_begin(settings, image, REPLAY_IMAGE, dst, REPLAY_DST, words, REPLAY_LIST, outcome, walk) == REPLAY_BAD_FIELD, "of a walk", 8);
    expect_outcome(REPLAY_BAD_FIELD, 0, LONGEST - 1, 5, "its place");
    expect(replay_write(settings, words, REPLAY_LIST, text, sizeof text, outcome) == REPLAY_BAD_FIELD, "of a listing", 8);
    expect_outcome(REPLAY_BAD_FIELD, 0, LONGEST - 1, 5, "its place");
}

/* A text, put together part by part. */
static size_t size;

static void add(const char *part)
{
    size_t length = strlen(part);
    memcpy(text + size, part, length);
    size += length;
}

/* A listing: its first line, the settings, its count, and so many NOPs. */
static void compose(const char *first, const char *count, unsigned lines)
{
    size = 0;
    add(first);
    add("edition=1\nsrcb=2\noffset=0000\ncursor=0005\nstride0=0000\nstride1=0000\nstride2=0000\nstride3=0000\n");
    add(count);
    for (unsigned i = 0; i < lines; i++) add("op=NOP imm=00000 vb=00 vc=00 vd=00 mod=00\n");
}

/* The text gives that answer, place, and cursor; a refusal leaves the list and gives no other setting. */
static void reads(uint32_t answer, uint32_t place, uint32_t cursor, const char *what)
{
    uint32_t wanted[8] = {1, 2, 0, cursor}, none[8] = {0, 0, 0, cursor};
    memset(list, 0xA5, sizeof list);
    memset(settings, 0xA5, sizeof settings);
    poison();
    expect(replay_read(text, size, list, REPLAY_LIST, settings, outcome) == answer, what, outcome[REPLAY_OUTCOME_ANSWER]);
    expect(outcome[REPLAY_OUTCOME_PLACE] == place, what, outcome[REPLAY_OUTCOME_PLACE]);
    expect_outcome(answer, 0, place, cursor, what);
    expect(memcmp(settings, answer == REPLAY_DONE ? wanted : none, sizeof settings) == 0, "the settings", answer);
    uint32_t length = outcome[REPLAY_OUTCOME_LENGTH];
    expect(answer == REPLAY_DONE || length == 0, "no list", length);
    for (uint32_t i = 0; i < length; i++) expect(list[i] == (i % 6 == REPLAY_INSN_OP ? (uint32_t)REPLAY_OP_NOP : 0), "the list", i);
    expect(is_painted(list + length, sizeof list - length * sizeof *list), "the words past it stay", length);
}

static void reads_listing(const char *first, const char *count, unsigned lines, uint32_t answer, uint32_t place)
{
    compose(first, count, lines);
    reads(answer, place, answer == REPLAY_BAD_TEXT ? 0 : 5, count);
    expect(outcome[REPLAY_OUTCOME_LENGTH] == (answer == REPLAY_DONE ? 6 * lines : 0), "its length", lines);
}

/* Either format is read up to its limit, with its own digits, and 10 names the line of the text as it stands. */
static void formats(void)
{
    static const char two[] = "format=2\n";
    reads_listing("", "count=0000\n", 0, REPLAY_DONE, 0);
    reads_listing("", "count=1024\n", FEW, REPLAY_DONE, 0);
    reads_listing("", "count=1025\n", FEW + 1, REPLAY_TOO_MANY, 0);
    reads_listing("", "count=9999\n", 0, REPLAY_TOO_MANY, 0);
    reads_listing("", "count=00002\n", 2, REPLAY_BAD_TEXT, 9);
    reads_listing("", "count=16384\n", LONGEST, REPLAY_BAD_TEXT, 9);
    reads_listing("", "count=0002\n", 1, REPLAY_BAD_TEXT, 11);
    reads_listing("", "count=0002\n", 3, REPLAY_BAD_TEXT, 12);
    reads_listing("", "count=0002\n\n", 2, REPLAY_BAD_TEXT, 10);
    reads_listing(two, "count=00000\n", 0, REPLAY_DONE, 0);
    reads_listing(two, "count=01024\n", FEW, REPLAY_DONE, 0);
    reads_listing(two, "count=01025\n", FEW + 1, REPLAY_DONE, 0);
    reads_listing(two, "count=16384\n", LONGEST, REPLAY_DONE, 0);
    reads_listing(two, "count=16385\n", LONGEST + 1, REPLAY_TOO_MANY, 0);
    reads_listing(two, "count=99999\n", 0, REPLAY_TOO_MANY, 0);
    reads_listing(two, "count=0002\n", 2, REPLAY_BAD_TEXT, 10);
    reads_listing(two, "count=000002\n", 2, REPLAY_BAD_TEXT, 10);
    reads_listing(two, "count=00002\n", 1, REPLAY_BAD_TEXT, 12);
    reads_listing(two, "count=00002\n", 3, REPLAY_BAD_TEXT, 13);
    reads_listing(two, "count=00002\n\n", 2, REPLAY_BAD_TEXT, 11);
    reads_listing(two, "count=16384\n", LONGEST - 1, REPLAY_BAD_TEXT, 11 + LONGEST - 1);
    reads_listing(two, "count=16384\n", LONGEST + 1, REPLAY_BAD_TEXT, 11 + LONGEST);
    reads_listing(two, "count=00002\r\n", 2, REPLAY_BAD_TEXT, 10);

    compose(two, "count=16384\n", LONGEST - 1);
    add("op=NOP imm=00000 vb=00 vc=00 vd=00 mod=01\n");
    reads(REPLAY_BAD_FIELD, LONGEST - 1, 5, "the last field");
    compose("", "count=1024\n", FEW - 1);
    add("op=NOP imm=00000 vb=00 vc=00 vd=00 mod=01\n");
    reads(REPLAY_BAD_FIELD, FEW - 1, 5, "the last field of an old listing");
}

/* What is not exactly the line format=2 is the first line of an old listing, and so not in form. */
static void first_lines(void)
{
    static const char *const others[] = {"format=1\n", "format=3\n", "format=2\r\n", "format=2 \n", " format=2\n", "FORMAT=2\n", "Format=2\n",
                                         "format=02\n", "format=\n", "format=2", "format 2\n", "\n", "\nformat=2\n", ("\xEF\xBB\xBF" "format=2\n")};
    for (unsigned i = 0; i < sizeof others / sizeof *others; i++) {
        compose(others[i], "count=0001\n", 1);
        reads(REPLAY_BAD_TEXT, 1, 0, others[i]);
        compose(others[i], "count=00001\n", 1);
        reads(REPLAY_BAD_TEXT, 1, 0, others[i]);
    }
    compose("format=2\nformat=2\n", "count=00001\n", 1);
    reads(REPLAY_BAD_TEXT, 2, 0, "the line twice");
    size = 0;
    reads(REPLAY_BAD_TEXT, 1, 0, "no text");
    add("format=2");
    reads(REPLAY_BAD_TEXT, 1, 0, "the line without its LF");
    add("\n");
    reads(REPLAY_BAD_TEXT, 2, 0, "the line alone");
    add("edition=1\n");
    reads(REPLAY_BAD_TEXT, 3, 0, "and one more");
}

/* The length of a text is tried before anything else: 1,048,576 bytes are not too long. */
static void lengths(void)
{
    static const char *const firsts[2] = {"", "format=2\n"}, *const counts[2] = {"count=1024\n", "count=16384\n"};
    static const unsigned most[2] = {FEW, LONGEST};
    for (unsigned i = 0; i < 2; i++) {
        compose(firsts[i], counts[i], most[i]);
        memset(text + size, '\n', sizeof text - size);
        size = BYTES;
        reads(REPLAY_BAD_TEXT, 10 + i + most[i], 0, "the longest text");
        size = BYTES + 1;
        reads(REPLAY_TOO_LONG, 0, 0, "a byte more");
    }
    compose("", "count=1025\n", 0);
    size = BYTES + 1;
    reads(REPLAY_TOO_LONG, 0, 0, "11 before 5");
    memset(text, 'x', sizeof text);
    reads(REPLAY_TOO_LONG, 0, 0, "and before 10");
    size = BYTES;
    reads(REPLAY_BAD_TEXT, 1, 0, "a line without end");
}

/* Good instructions of every op, by turns in each of its mods and over all registers. */
static void medley(unsigned count)
{
    static const uint16_t mods[LAST_OP + 1] = {0,      0xEBE7, 0x0500, 0x1111, 0xFFFF, 0xFFFF, 0xFFFF, 0x0003, 0x0003,
                                               0x0003, 0x0001, 0x0001, 0x5555, 0x0F0F, 0x0003, 0x0001, 0x02C4};
    static const uint32_t imms[LAST_OP + 1] = {0, 1024, 65536, 1, 1, 65536, 4096, 1, 1, 1, 1, 1, 1, 1, 1, 1, 1024};
    for (unsigned k = 0; k < count; k++) {
        uint32_t *insn = list + 6 * k, op = k % LAST_OP + 1, mod = k / LAST_OP % 16;
        while ((mods[op] >> mod & 1) == 0) mod = (mod + 1) % 16;
        memset(insn, 0, 6 * sizeof *insn);
        insn[REPLAY_INSN_OP] = op;
        insn[REPLAY_INSN_IMM] = 2654435761u * (k + 1) % imms[op];
        insn[REPLAY_INSN_MOD] = mod;
        if (op == REPLAY_OP_LOAD || op == REPLAY_OP_STORE) insn[REPLAY_INSN_VB] = k / 3 % 4;
        if ((op == REPLAY_OP_AND || op == REPLAY_OP_OR) && mod == 1) insn[REPLAY_INSN_VB] = k / 5 % 16;
        if (op == REPLAY_OP_SWAP || (op >= REPLAY_OP_IADD && op <= REPLAY_OP_EXMAN)) insn[REPLAY_INSN_VC] = k / 7 % 16;
        if (op != REPLAY_OP_NOP) insn[REPLAY_INSN_VD] = k / LAST_OP % 16;
    }
}

/* The text reads to the settings and the list in hand, in room that is just enough, and is replayed; its report is put into `printed`. */
static size_t reads_again(uint8_t *printed, const char *what)
{
    static uint32_t words[6 * FEW];
    uint32_t others[8] = {0};
    size_t length = 0;
    memset(words, 0xA5, sizeof words);
    expect(replay_read(text, size, words, 6 * FEW - 1, others, outcome) == REPLAY_TOO_LONG && is_painted(words, sizeof words), what, 11);
    expect(replay_read(text, size, words, 6 * FEW, others, outcome) == REPLAY_DONE, what, outcome[REPLAY_OUTCOME_PLACE]);
    expect(outcome[REPLAY_OUTCOME_LENGTH] == 6 * FEW && memcmp(words, list, sizeof words) == 0, what, outcome[REPLAY_OUTCOME_LENGTH]);
    expect(memcmp(others, settings, sizeof settings) == 0, what, 0);
    expect(replay_report(text, size, printed, REPLAY_REPORT, &length) == REPLAY_DONE, what, (unsigned)length);
    return length;
}

/* An old listing, of every op, reads to the same settings and list as its rewritten form, which is written byte for byte again. */
static void rewritten(void)
{
    static uint8_t form[REPLAY_TEXT], printed[2][REPLAY_REPORT];
    const size_t first = strlen("format=2\n"), digits = 114 - strlen("01024\n");   /* where the old header begins, and where count's digits do */
    start();
    for (uint32_t i = REPLAY_SETTING_OFFSET; i < 8; i++) settings[i] = 1023 - i;
    medley(FEW);
    expect(replay_write(settings, list, 6 * FEW, form, sizeof form, outcome) == REPLAY_DONE, "written", 0);
    const size_t form_size = outcome[REPLAY_OUTCOME_LENGTH];
    expect(memcmp(form, "format=2\nedition=1\n", first + 10) == 0 && memcmp(form + digits - 6, "count=01024\nop=", 15) == 0, "as format 2", 0);

    /* without the first line, and the first digit of count */
    memcpy(text, form + first, digits - first);
    memcpy(text + digits - first, form + digits + 1, form_size - digits - 1);
    size = form_size - first - 1;
    size_t length = reads_again(printed[0], "an old listing");
    expect(replay_write(settings, list, 6 * FEW, text, sizeof text, outcome) == REPLAY_DONE, "and written", 0);
    size = outcome[REPLAY_OUTCOME_LENGTH];
    expect(size == form_size && memcmp(text, form, size) == 0, "as format 2, byte for byte", (unsigned)size);
    expect(reads_again(printed[1], "its rewritten form") == length, "a report as long", (unsigned)length);
    expect(memcmp(printed[0], printed[1], length) == 0, "and the same", (unsigned)length);
}

/* The report of the text is this. */
static void reports(uint32_t answer, const char *wanted)
{
    size_t length = 99;
    memset(room, 0xA5, sizeof room);
    expect(replay_report(text, size, room, REPLAY_REPORT, &length) == answer, wanted, answer);
    expect(length == strlen(wanted) && memcmp(room, wanted, length) == 0, wanted, (unsigned)length);
    expect(is_painted(room + length, sizeof room - length), "the bytes past it stay", answer);
}

static const char refused_11[] = "answer=11\nsteps=00000\nplace=00000\ncursor=0000\n";

/* The longest list that the program holds is replayed; LFs after it, up to the longest text, are a line too many, and one more is 11. */
static void reports_most(const char *first, const char *count, const char *line_too_many)
{
    compose(first, count, FEW);
    reports(REPLAY_DONE, "answer=0\nsteps=01024\nplace=00000\ncursor=0005\n");
    memset(text + size, '\n', sizeof text - size);
    size = FEW_BYTES;
    reports(REPLAY_BAD_TEXT, line_too_many);
    size = FEW_BYTES + 1;
    reports(REPLAY_TOO_LONG, refused_11);
}

/* The program holds 1,024 instructions and 65,536 bytes of either format: 11 is the first refusal for a text, and the last for a list. */
static void held(void)
{
    static const char two[] = "format=2\n";
    reports_most(two, "count=01024\n", "answer=10\nsteps=00000\nplace=01035\ncursor=0000\n");
    reports_most("", "count=1024\n", "answer=10\nsteps=00000\nplace=01034\ncursor=0000\n");
    compose("", "count=1025\n", FEW + 1);
    reports(REPLAY_TOO_MANY, "answer=5\nsteps=00000\nplace=00000\ncursor=0005\n");
    compose(two, "count=01025\n", FEW + 1);
    reports(REPLAY_TOO_LONG, refused_11);
    compose(two, "count=01025\n", FEW);
    add("op=NOP imm=00000 vb=00 vc=00 vd=00 mod=01\n");
    reports(REPLAY_BAD_FIELD, "answer=8\nsteps=00000\nplace=01024\ncursor=0005\n");
    compose(two, "count=01025\n", FEW + 2);
    reports(REPLAY_BAD_TEXT, "answer=10\nsteps=00000\nplace=01036\ncursor=0000\n");
    compose(two, "count=16385\n", 0);
    reports(REPLAY_TOO_MANY, "answer=5\nsteps=00000\nplace=00000\ncursor=0005\n");
    compose(two, "count=16384\n", LONGEST);
    reports(REPLAY_TOO_LONG, refused_11);
}

static void refused_run(const uint32_t *words, size_t dst_len, uint32_t answer)
{
    static const uint32_t no_words[REPLAY_IMAGE] = {0};
    static const uint16_t no_cells[REPLAY_DST] = {0};
    start();
    expect(replay_run(settings, image, REPLAY_IMAGE, dst, dst_len, words, 18, outcome) == answer, "refused", answer);
    expect(memcmp(image, no_words, sizeof image) == 0, "the image is as it was", answer);
    expect(memcmp(dst, no_cells, sizeof dst) == 0, "Dst is as it was", answer);
}

/* Dst is written by STORE, in the cells of its address alone, and not where anything in the list is refused. */
static void stores(void)
{
    uint32_t insns[18] = {REPLAY_OP_STORE, 4, 0, 0, 10, 2, REPLAY_OP_LOAD, 4, 0, 0, 5, 2, REPLAY_OP_STORE, 1022, 0, 0, 15, 6};
    start();
    expect(replay_run(settings, image, REPLAY_IMAGE, dst, REPLAY_DST, insns, 18, outcome) == REPLAY_DONE, "done", 0);
    for (unsigned lane_at = 0; lane_at < REPLAY_LANES; lane_at++) {
        unsigned at = lane_at / 8 * 16 + lane_at % 8 * 2;
        expect(dst[4 * 16 + at] == 0x007F && dst[1020 * 16 + at + 1] == 2 * lane_at, "what is stored", lane_at);
        expect(image[REPLAY_AT_REGISTER_5 + lane_at] == 0x3F800000, "and loaded again", lane_at);
        dst[4 * 16 + at] = dst[1020 * 16 + at + 1] = 0;
    }
    for (unsigned at = 0; at < REPLAY_DST; at++) expect(dst[at] == 0, "and nothing else", at);

    refused_run(insns, REPLAY_DST - 1, REPLAY_BAD_DST_LENGTH);
    insns[12 + REPLAY_INSN_MOD] = 3;
    refused_run(insns, REPLAY_DST, REPLAY_BAD_FIELD);
    insns[12 + REPLAY_INSN_OP] = REPLAY_OP_LOAD;
    refused_run(insns, REPLAY_DST, REPLAY_BAD_LOAD_MOD);
    insns[12 + REPLAY_INSN_OP] = LAST_OP + 1;
    refused_run(insns, REPLAY_DST, REPLAY_UNKNOWN_OP);
}

/* The counts of the columns, which stand in the outcome from `first` on. */
static void expect_counts(unsigned first, const uint32_t counts[REPLAY_COLUMNS], const char *what)
{
    for (unsigned column = 0; column < REPLAY_COLUMNS; column++) expect(outcome[first + column] == counts[column], what, column);
}

/* A run over what is in hand, its outcome written over whatever was there and no further. */
static void counts_of(const uint32_t *words, size_t image_len, size_t dst_len, size_t list_len, uint32_t answer)
{
    poison();
    expect(replay_run(settings, image, image_len, dst, dst_len, words, list_len, outcome) == answer, "a run", answer);
    expect(untouched(REPLAY_OUTCOME), "the words past its outcome stay", answer);
}

static void run_counted(const uint32_t *words, size_t len) { counts_of(words, REPLAY_IMAGE, REPLAY_DST, len, REPLAY_DONE); }

static void refused_counts(const uint32_t *words, size_t image_len, size_t dst_len, size_t list_len, uint32_t answer)
{
    static const uint32_t none[REPLAY_COLUMNS] = {0};
    counts_of(words, image_len, dst_len, list_len, answer);
    expect_counts(REPLAY_OUTCOME_TIES, none, "no ties of a refused run");
    expect_counts(REPLAY_OUTCOME_STORES, none, "no stores of a refused run");
}

/* A list that would count, refused by each number of a run; by 7 to 9 for an instruction after it. */
static void never_counted(const uint32_t *insns, size_t len)
{
    static uint32_t words[REPLAY_LIST + 6];
    uint32_t *last = words + len, cursor = settings[REPLAY_SETTING_CURSOR], misc = image[REPLAY_AT_MISC];
    memset(words, 0, sizeof words);
    memcpy(words, insns, len * sizeof *words);
    refused_counts(words, REPLAY_IMAGE - 1, REPLAY_DST, len, REPLAY_BAD_IMAGE_LENGTH);
    refused_counts(words, REPLAY_IMAGE, REPLAY_DST - 1, len, REPLAY_BAD_DST_LENGTH);
    refused_counts(words, REPLAY_IMAGE, REPLAY_DST, len - 1, REPLAY_BAD_LIST_LENGTH);
    refused_counts(words, REPLAY_IMAGE, REPLAY_DST, REPLAY_LIST + 6, REPLAY_TOO_MANY);
    settings[REPLAY_SETTING_CURSOR] = 1024;
    refused_counts(words, REPLAY_IMAGE, REPLAY_DST, len, REPLAY_BAD_SETTING);
    settings[REPLAY_SETTING_CURSOR] = cursor;
    image[REPLAY_AT_MISC] = 1u << 12;
    refused_counts(words, REPLAY_IMAGE, REPLAY_DST, len, REPLAY_BAD_IMAGE);
    image[REPLAY_AT_MISC] = misc;
    last[REPLAY_INSN_OP] = LAST_OP + 1;
    refused_counts(words, REPLAY_IMAGE, REPLAY_DST, len + 6, REPLAY_UNKNOWN_OP);
    last[REPLAY_INSN_OP] = REPLAY_OP_LOAD;
    last[REPLAY_INSN_MOD] = 3;
    refused_counts(words, REPLAY_IMAGE, REPLAY_DST, len + 6, REPLAY_BAD_LOAD_MOD);
    last[REPLAY_INSN_VD] = 16;
    refused_counts(words, REPLAY_IMAGE, REPLAY_DST, len + 6, REPLAY_BAD_FIELD);
}

/* The ties of a run stand by column, over whatever was in the outcome; a refused run has none. */
static void ties(void)
{
    /* Register 0 is 26, twice lane 13; register 1 too, but in lanes 0 to 2 and 8; lane 31 is not enabled; bit 4 is set in lanes 5, 6 and 14. */
    static const uint32_t swaps[24] = {REPLAY_OP_SWAP, 0, 0, 0, 1, 1,  REPLAY_OP_SWAP, 0, 0, 1, 0, 0,
                                       REPLAY_OP_SWAP, 0, 0, 0, 15, 9, REPLAY_OP_SWAP, 0, 0, 12, 12, 2};
    static const uint32_t first[REPLAY_COLUMNS] = {2, 3, 3, 4, 4, 4, 4, 3}, none[REPLAY_COLUMNS] = {0};
    static const uint32_t all[REPLAY_COLUMNS] = {2, 3, 3, 4, 4, 5, 6, 3};   /* 12 with itself, in lanes 5, 6 and 14; 15 with 0 in none, since lane 13 doesn't act */
    start();
    for (unsigned at = 0; at < REPLAY_LANES; at++) {
        image[REPLAY_AT_REGISTER_0 + at] = 26;
        image[REPLAY_AT_REGISTER_1 + at] = at < 3 || at == 8 ? 25 : 26;
    }
    image[REPLAY_AT_USE_FLAGS + 31] = 1;
    image[REPLAY_AT_LANE_CONFIG + 5] = image[REPLAY_AT_LANE_CONFIG + 6] = image[REPLAY_AT_LANE_CONFIG + 14] = 1u << 4;
    never_counted(swaps, 24);
    run_counted(swaps, 6);
    expect_counts(REPLAY_OUTCOME_TIES, first, "the ties of one");
    run_counted(swaps, 24);
    expect_counts(REPLAY_OUTCOME_TIES, all, "the ties of four");
    run_counted(swaps, 0);
    expect_counts(REPLAY_OUTCOME_TIES, none, "no ties without a list");
}

/* Bits of LaneConfig. */
enum { BLOCK = 1 << 1, INDEX = 1 << 2, CAPTURE = 1 << 3, NO_BACKDOOR = 1 << 4, REVERSE = 1 << 8 };

/* One instruction from an image of zeros, with one LaneConfig in all lanes: how many stores to registers a column's four lanes make. */
static const struct {
    uint32_t insn[6], config, stores;
} traffic[] = {
    {{REPLAY_OP_LOADI, 7, 0, 0, 0, 10}, 0, 4},
    {{REPLAY_OP_LOADI, 7, 0, 0, 7, 8}, INDEX | CAPTURE, 4},
    {{REPLAY_OP_LOADI, 0, 0, 0, 2, 10}, 0, 4},                      /* the word that is there already */
    {{REPLAY_OP_LOADI, 7, 0, 0, 8, 10}, 0, 0},
    {{REPLAY_OP_LOADI, 7, 0, 0, 12, 10}, 0, 0},                     /* only CONFIG stores there */
    {{REPLAY_OP_LOADI, 7, 0, 0, 15, 10}, 0, 0},
    {{REPLAY_OP_LOAD, 4, 0, 0, 7, 6}, 0, 4},
    {{REPLAY_OP_LOAD, 4, 0, 0, 8, 6}, INDEX | CAPTURE, 0},
    {{REPLAY_OP_LOAD, 4, 0, 0, 3, 6}, INDEX, 4},
    {{REPLAY_OP_LOAD, 4, 0, 0, 3, 6}, CAPTURE, 4},
    {{REPLAY_OP_LOAD, 4, 0, 0, 3, 6}, INDEX | CAPTURE, 8},          /* the place, captured in register 7 */
    {{REPLAY_OP_LOAD, 4, 0, 0, 0, 15}, INDEX | CAPTURE, 8},
    {{REPLAY_OP_LOAD, 4, 0, 0, 4, 6}, INDEX | CAPTURE, 4},
    {{REPLAY_OP_LOAD, 4, 0, 0, 3, 6}, INDEX | CAPTURE | BLOCK, 0},
    {{REPLAY_OP_LUT, 0, 0, 0, 7, 0}, 0, 4},
    {{REPLAY_OP_LUT, 0, 0, 0, 8, 0}, 0, 0},
    {{REPLAY_OP_LUT, 0, 0, 0, 8, 8}, 0, 4},                         /* register 7 names register 0 */
    {{REPLAY_OP_LUT, 0, 0, 0, 12, 8}, 0, 0},
    {{REPLAY_OP_LUT, 0, 0, 0, 12, 8}, NO_BACKDOOR, 4},
    {{REPLAY_OP_SWAP, 0, 0, 0, 1, 0}, 0, 8},
    {{REPLAY_OP_SWAP, 0, 0, 5, 5, 0}, 0, 8},                        /* with itself: two a lane */
    {{REPLAY_OP_SWAP, 0, 0, 8, 7, 0}, 0, 4},
    {{REPLAY_OP_SWAP, 0, 0, 7, 11, 0}, 0, 4},
    {{REPLAY_OP_SWAP, 0, 0, 8, 9, 0}, 0, 0},
    {{REPLAY_OP_SWAP, 0, 0, 0, 12, 0}, 0, 0},
    {{REPLAY_OP_SWAP, 0, 0, 0, 12, 0}, NO_BACKDOOR, 4},
    {{REPLAY_OP_SWAP, 0, 0, 0, 1, 0}, INDEX, 16},                   /* 0 and 1, and then 4 and 5: the most of all */
    {{REPLAY_OP_SWAP, 0, 0, 3, 3, 0}, INDEX, 16},                   /* 3 twice, and then 7 twice */
    {{REPLAY_OP_SWAP, 0, 0, 0, 4, 0}, INDEX, 12},                   /* 0, and then 4 twice */
    {{REPLAY_OP_SWAP, 0, 0, 6, 1, 0}, INDEX, 12},
    {{REPLAY_OP_SWAP, 0, 0, 4, 7, 0}, INDEX, 8},
    {{REPLAY_OP_SWAP, 0, 0, 15, 8, 0}, INDEX, 8},                   /* the index registers alone */
    {{REPLAY_OP_SWAP, 0, 0, 0, 12, 0}, INDEX, 0},
    {{REPLAY_OP_SWAP, 0, 0, 0, 12, 0}, INDEX | NO_BACKDOOR, 12},
    {{REPLAY_OP_SWAP, 0, 0, 0, 1, 1}, 0, 0},                        /* equal words: swapped where vd wants the greater */
    {{REPLAY_OP_SWAP, 0, 0, 0, 1, 1}, REVERSE, 8},
    {{REPLAY_OP_SWAP, 0, 0, 0, 1, 2}, 0, 4},
    {{REPLAY_OP_SWAP, 0, 0, 0, 1, 5}, INDEX, 12},
    {{REPLAY_OP_SWAP, 0, 0, 0, 1, 5}, INDEX | REVERSE, 4},
    {{REPLAY_OP_SWAP, 0, 0, 0, 1, 9}, 0, 8},
    {{REPLAY_OP_SWAP, 0, 0, 0, 1, 9}, REVERSE, 0},
    {{REPLAY_OP_SWAP, 0, 0, 0, 1, 0}, REVERSE, 8},
    {{REPLAY_OP_CONFIG, 7, 0, 0, 0, 0}, 0, 0},
    {{REPLAY_OP_CONFIG, 7, 0, 0, 3, 1}, 0, 0},
    {{REPLAY_OP_CONFIG, 7, 0, 0, 4, 1}, 0, 0},
    {{REPLAY_OP_CONFIG, 7, 0, 0, 7, 0}, 0, 0},
    {{REPLAY_OP_CONFIG, 7, 0, 0, 8, 1}, 0, 0},
    {{REPLAY_OP_CONFIG, 7, 0, 0, 9, 1}, 0, 0},
    {{REPLAY_OP_CONFIG, 7, 0, 0, 10, 1}, 0, 0},
    {{REPLAY_OP_CONFIG, 7, 0, 0, 11, 0}, 0, 4},
    {{REPLAY_OP_CONFIG, 7, 0, 0, 12, 1}, 0, 4},
    {{REPLAY_OP_CONFIG, 7, 0, 0, 13, 6}, 0, 4},
    {{REPLAY_OP_CONFIG, 7, 0, 0, 14, 1}, 0, 4},
    {{REPLAY_OP_CONFIG, 7, 0, 0, 15, 1}, 0, 0},
    {{REPLAY_OP_IADD, 1, 0, 9, 7, 9}, 0, 4},                        /* the flag, set and inverted, is no register */
    {{REPLAY_OP_IADD, 1, 0, 9, 8, 9}, 0, 0},
    {{REPLAY_OP_ABS, 0, 0, 10, 6, 0}, 0, 4},
    {{REPLAY_OP_AND, 0, 10, 10, 5, 1}, 0, 4},
    {{REPLAY_OP_OR, 0, 0, 10, 4, 0}, 0, 4},
    {{REPLAY_OP_XOR, 0, 0, 3, 3, 0}, 0, 4},
    {{REPLAY_OP_NOT, 0, 0, 9, 2, 0}, 0, 4},
    {{REPLAY_OP_NOT, 0, 0, 9, 11, 0}, 0, 0},
    {{REPLAY_OP_LZ, 0, 0, 9, 1, 10}, 0, 4},
    {{REPLAY_OP_EXEXP, 0, 0, 9, 0, 2}, 0, 4},
    {{REPLAY_OP_EXMAN, 0, 0, 10, 7, 1}, 0, 4},
    {{REPLAY_OP_NOP, 0, 0, 0, 0, 0}, INDEX | CAPTURE, 0},
    {{REPLAY_OP_STORE, 4, 0, 0, 0, 2}, 0, 0},
};

/* The stores to registers of a run stand by column, over whatever was in the outcome; a refused run has none. */
static void register_stores(void)
{
    static const uint32_t none[REPLAY_COLUMNS] = {0};
    /* Lanes 3, 12 and 31 are not enabled; lane 13 is, by its flag. The index is enabled and captured in lanes 1 and 9; lane 2 reads no Dst. */
    static const uint32_t insns[42] = {
        REPLAY_OP_LOADI, 7, 0, 0, 2, 10,    REPLAY_OP_CONFIG, 0, 0, 0, 12, 1,
        REPLAY_OP_CONFIG, 1 << 0 | 1 << 6 | 1 << 8 | 1 << 15, 0, 0, 13, 8,      /* columns 0, 3 and 4; bit 15 is no column's */
        REPLAY_OP_LOAD, 4, 0, 0, 3, 6,      REPLAY_OP_SWAP, 0, 0, 0, 4, 0,
        REPLAY_OP_STORE, 4, 0, 0, 3, 6,     REPLAY_OP_CONFIG, 7, 0, 0, 0, 0,
    };
    static const uint32_t made[7][REPLAY_COLUMNS] = {
        {4, 4, 4, 3, 3, 4, 4, 3},       /* in the lanes enabled */
        {4, 4, 4, 0, 4, 4, 4, 4},       /* in every lane, but of column 3, whose lane of row 0 is not enabled */
        {4, 0, 0, 0, 4, 0, 0, 0},       /* under the mask */
        {4, 6, 3, 3, 3, 4, 4, 3},       /* a second one in lanes 1 and 9, none in lane 2 */
        {8, 10, 8, 6, 6, 8, 8, 6},      /* 0 and 4; in lanes 1 and 9 only 0, but then 4 twice */
    };
    uint32_t sums[REPLAY_COLUMNS] = {0};
    for (unsigned i = 0; i < sizeof traffic / sizeof *traffic; i++) {
        start();
        for (unsigned at = 0; at < REPLAY_LANES; at++) image[REPLAY_AT_LANE_CONFIG + at] = traffic[i].config;
        run_counted(traffic[i].insn, 6);
        for (unsigned column = 0; column < REPLAY_COLUMNS; column++)
            expect(outcome[REPLAY_OUTCOME_STORES + column] == traffic[i].stores, "the stores of one, by its row and column", 10 * i + column);
    }

    start();
    image[REPLAY_AT_USE_FLAGS + 3] = image[REPLAY_AT_USE_FLAGS + 12] = image[REPLAY_AT_USE_FLAGS + 13] = image[REPLAY_AT_USE_FLAGS + 31] = 1;
    image[REPLAY_AT_LANE_FLAGS + 13] = 1;
    image[REPLAY_AT_LANE_CONFIG + 1] = image[REPLAY_AT_LANE_CONFIG + 9] = INDEX | CAPTURE;
    image[REPLAY_AT_LANE_CONFIG + 2] = BLOCK;
    never_counted(insns, 42);
    run_counted(insns, 0);
    expect_counts(REPLAY_OUTCOME_STORES, none, "no stores without a list");
    for (unsigned k = 0; k < 7; k++) {      /* each run anew: flags and LaneConfig, by which they go, stay */
        for (unsigned column = 0; column < REPLAY_COLUMNS; column++) sums[column] += made[k][column];
        run_counted(insns, 6 * (k + 1));
        expect_counts(REPLAY_OUTCOME_STORES, sums, "the stores of so many");
    }

    /* the longest list, of the most stores; in column 6 half as many */
    start();
    for (unsigned at = 0; at < REPLAY_LANES; at++) image[REPLAY_AT_LANE_CONFIG + at] = at % REPLAY_COLUMNS == 6 ? 0 : INDEX;
    memset(list, 0, sizeof list);
    for (unsigned k = 0; k < LONGEST; k++) {
        list[6 * k + REPLAY_INSN_OP] = REPLAY_OP_SWAP;
        list[6 * k + REPLAY_INSN_VD] = 1;
    }
    run_counted(list, REPLAY_LIST);
    for (unsigned column = 0; column < REPLAY_COLUMNS; column++) sums[column] = column == 6 ? 131072 : 262144;
    expect_counts(REPLAY_OUTCOME_STORES, sums, "the most stores");
}

/* A list in which each instruction changes something, with STOREs of every mod: to even and odd cells, some of them twice, before and after
 * LaneConfig chooses others. Walks over it set out from an image and a Dst that are not 0, and lane 12 is not enabled. */
static const uint32_t tour[] = {
    REPLAY_OP_STORE, 0, 1, 0, 0, 7,     REPLAY_OP_STORE, 0, 2, 0, 15, 6,    REPLAY_OP_STORE, 0, 0, 0, 1, 9,
    REPLAY_OP_LOADI, 77, 0, 0, 2, 10,   REPLAY_OP_SWAP, 0, 0, 1, 2, 1,      REPLAY_OP_STORE, 2, 1, 0, 2, 2,
    REPLAY_OP_CONFIG, 32, 0, 0, 15, 1,  REPLAY_OP_STORE, 1020, 3, 0, 4, 7,  REPLAY_OP_LOAD, 4, 2, 0, 5, 6,
    REPLAY_OP_IADD, 0, 0, 5, 6, 0,      REPLAY_OP_STORE, 0, 3, 0, 6, 9,
};
enum { TOUR = sizeof tour / sizeof *tour };

struct machine {
    uint32_t image[REPLAY_IMAGE];
    uint16_t dst[REPLAY_DST];
};
static struct machine origin, before;

static void keep(struct machine *m)
{
    memcpy(m->image, image, sizeof image);
    memcpy(m->dst, dst, sizeof dst);
}

static int same_image(const struct machine *m) { return memcmp(image, m->image, sizeof image) == 0; }
static int same_dst(const struct machine *m) { return memcmp(dst, m->dst, sizeof dst) == 0; }

static void set_out(const uint32_t *words, size_t len)
{
    start();
    for (unsigned i = 0; i < REPLAY_AT_LANE_CONFIG; i++) image[i] = 0x9E3779B9u * (i + 1);
    for (unsigned i = 0; i < REPLAY_DST; i++) dst[i] = (uint16_t)(0x9E37u * (i + 1));
    image[REPLAY_AT_LANE_CONFIG + 3] = 1u << 5;
    image[REPLAY_AT_USE_FLAGS + 12] = 1;
    settings[REPLAY_SETTING_OFFSET] = 1000;
    settings[REPLAY_SETTING_CURSOR] = 21;
    settings[REPLAY_SETTING_STRIDE1] = 4;
    settings[REPLAY_SETTING_STRIDE2] = 1020;
    settings[REPLAY_SETTING_STRIDE3] = 1;
    keep(&origin);
    lent = REPLAY_ENTRY * (len / 6) + (len < REPLAY_LIST);
    memset(entries, 0xA5, lent * sizeof *entries);
    poison();
    expect(replay_begin(settings, image, REPLAY_IMAGE, dst, REPLAY_DST, words, len, outcome, walk) == REPLAY_DONE, "begun", 0);
}

static uint32_t forward(const uint32_t *words, size_t len, size_t size)
{
    return replay_forward(settings, image, REPLAY_IMAGE, dst, REPLAY_DST, words, len, entries, size, walk);
}

static uint32_t back(const uint32_t *words, size_t len, size_t size)
{
    return replay_back(settings, image, REPLAY_IMAGE, dst, REPLAY_DST, words, len, entries, size, walk);
}

/* The walk is at k, and image, Dst and cursor are those of a run of the first k instructions. */
static void stands(const uint32_t *words, unsigned k)
{
    static struct machine run;
    run = origin;
    expect(replay_run(settings, run.image, REPLAY_IMAGE, run.dst, REPLAY_DST, words, 6 * k, outcome) == REPLAY_DONE, "run so far", k);
    expect(same_image(&run), "the image is the run's", k);
    expect(same_dst(&run), "Dst is the run's", k);
    expect(walk[REPLAY_WALK_AT] == k && walk[REPLAY_WALK_CURSOR] == outcome[REPLAY_OUTCOME_CURSOR], "the walk is there, with the run's cursor", k);
}

/* Ties and stores, which stand side by side in the outcome. */
enum { COUNTS = 2 * REPLAY_COLUMNS };

/* Runs the list from the origin, but with all bits of one column's words and cells turned, and its lanes enabled as they are then, or none. */
static void run_beside(unsigned column, int enabled, size_t len)
{
    static const uint32_t turned[REPLAY_IMAGE / REPLAY_LANES] = {~0u, ~0u, ~0u, ~0u, ~0u, ~0u, ~0u, ~0u, ~0u, ~0u, ~0u, ~0u, (1u << 18) - 1,
                                                                 1, 1, ~0u, ~0u, ~0u, ~0u, ~0u, ~0u, ~0u, ~0u, (1u << 12) - 1};
    memcpy(image, origin.image, sizeof image);
    memcpy(dst, origin.dst, sizeof dst);
    for (unsigned i = column; i < REPLAY_IMAGE; i += REPLAY_COLUMNS) image[i] ^= turned[i / REPLAY_LANES];
    for (unsigned i = column; i < REPLAY_DST / 2; i += REPLAY_COLUMNS) {
        dst[2 * i] ^= 0xFFFF;
        dst[2 * i + 1] ^= 0xFFFF;
    }
    for (unsigned at = column; at < REPLAY_LANES && !enabled; at += REPLAY_COLUMNS) {
        image[REPLAY_AT_USE_FLAGS + at] = 1;
        image[REPLAY_AT_LANE_FLAGS + at] = 0;
    }
    run_counted(list, len);
}

/* A column's ties and stores are its own, whatever another column holds; those of a list are the sums of its instructions'. */
static void columns(void)
{
    const unsigned count = 512;
    uint32_t all[COUNTS], sums[COUNTS] = {0};
    medley(count);
    set_out(list, 6 * count);
    for (unsigned at = 0; at < REPLAY_LANES; at++) {
        image[REPLAY_AT_LANE_CONFIG + at] = 0x9E3779B9u * (at + 1) >> 14;
        image[REPLAY_AT_USE_FLAGS + at] = at % 3 == 0;
    }
    keep(&origin);
    run_counted(list, 6 * count);
    memcpy(all, outcome + REPLAY_OUTCOME_TIES, sizeof all);
    for (unsigned i = 0; i < COUNTS; i++) expect(all[i] > 0 && all[i] <= (i < REPLAY_COLUMNS ? 4 : 16) * count, "some, and not too many", i);
    for (unsigned column = 0; column < REPLAY_COLUMNS; column++)
        for (int enabled = 0; enabled < 2; enabled++) {
            run_beside(column, enabled, 6 * count);
            for (unsigned i = 0; i < COUNTS; i++) {
                uint32_t counted = outcome[REPLAY_OUTCOME_TIES + i];
                if (i % REPLAY_COLUMNS != column) expect(counted == all[i], "the counts of the other columns stay", 100 * column + i);
                else if (!enabled) expect(counted == 0, "none where no lane is enabled", i);
            }
        }
    memcpy(image, origin.image, sizeof image);
    memcpy(dst, origin.dst, sizeof dst);
    for (unsigned k = 0; k < count; k++) {
        run_counted(list + 6 * k, 6);
        settings[REPLAY_SETTING_CURSOR] = outcome[REPLAY_OUTCOME_CURSOR];
        for (unsigned i = 0; i < COUNTS; i++) {
            sums[i] += outcome[REPLAY_OUTCOME_TIES + i];
            expect(outcome[REPLAY_OUTCOME_TIES + i] <= (i < REPLAY_COLUMNS ? 4u : 16u), "the most of one", 100 * k + i);
        }
    }
    expect(memcmp(sums, all, sizeof all) == 0, "the sums of the list's instructions", 0);
}

static void refused_begin(const uint32_t *words, size_t image_len, size_t dst_len, size_t list_len, uint32_t answer)
{
    uint32_t begun[4];
    poison();
    walk[REPLAY_WALK_AT] = 7;
    walk[REPLAY_WALK_CURSOR] = 9;
    expect(replay_begin(settings, image, image_len, dst, dst_len, words, list_len, outcome, walk) == answer, "refused", answer);
    expect(walk[REPLAY_WALK_AT] == 7 && walk[REPLAY_WALK_CURSOR] == 9, "the walk is as it was", answer);
    expect(untouched(REPLAY_OUTCOME_CURSOR + 1), "four words of a walk's start", answer);
    memcpy(begun, outcome, sizeof begun);
    expect(replay_run(settings, image, image_len, dst, dst_len, words, list_len, outcome) == answer, "and so is a run", answer);
    expect(memcmp(begun, outcome, sizeof begun) == 0, "with the same outcome", answer);
}

/* A walk begins at 0 with the given cursor, changes nothing, and is refused as a run is. */
static void begins(void)
{
    static uint32_t words[REPLAY_LIST + 6];
    memcpy(words, tour, sizeof tour);
    set_out(words, TOUR);
    expect(outcome[REPLAY_OUTCOME_ANSWER] == 0 && outcome[REPLAY_OUTCOME_STEPS] == 0 && outcome[REPLAY_OUTCOME_PLACE] == 0 &&
           outcome[REPLAY_OUTCOME_CURSOR] == 21 && untouched(REPLAY_OUTCOME_CURSOR + 1), "the outcome of a walk's start", 0);
    expect(walk[REPLAY_WALK_AT] == 0 && walk[REPLAY_WALK_CURSOR] == 21, "where it stands", 0);
    refused_begin(words, REPLAY_IMAGE - 1, REPLAY_DST, TOUR, REPLAY_BAD_IMAGE_LENGTH);
    refused_begin(words, REPLAY_IMAGE, REPLAY_DST - 1, TOUR, REPLAY_BAD_DST_LENGTH);
    refused_begin(words, REPLAY_IMAGE, REPLAY_DST, TOUR - 1, REPLAY_BAD_LIST_LENGTH);
    refused_begin(words, REPLAY_IMAGE, REPLAY_DST, REPLAY_LIST + 6, REPLAY_TOO_MANY);
    words[TOUR - 6 + REPLAY_INSN_OP] = LAST_OP + 1;
    refused_begin(words, REPLAY_IMAGE, REPLAY_DST, TOUR, REPLAY_UNKNOWN_OP);
    words[TOUR - 6 + REPLAY_INSN_OP] = REPLAY_OP_NOP;
    refused_begin(words, REPLAY_IMAGE, REPLAY_DST, TOUR, REPLAY_BAD_FIELD);
    words[TOUR - 6 + REPLAY_INSN_OP] = REPLAY_OP_LOAD;
    words[TOUR - 6 + REPLAY_INSN_MOD] = 12;
    refused_begin(words, REPLAY_IMAGE, REPLAY_DST, TOUR, REPLAY_BAD_LOAD_MOD);
    expect(same_image(&origin) && same_dst(&origin), "image and Dst are as they were", 0);
    image[REPLAY_AT_LANE_FLAGS] = 2;
    refused_begin(words, REPLAY_IMAGE, REPLAY_DST, TOUR, REPLAY_BAD_IMAGE);
    settings[REPLAY_SETTING_CURSOR] = 1024;
    refused_begin(words, REPLAY_IMAGE, REPLAY_DST, TOUR, REPLAY_BAD_SETTING);
}

/* To the end and back to the start, and then to and fro: wherever a walk stands, it is as if a run had come there. */
static void walks(void)
{
    const unsigned count = TOUR / 6;
    unsigned at = 0;
    set_out(tour, TOUR);
    stands(tour, 0);
    for (unsigned k = 0; k < count; k++) {
        keep(&before);
        expect(forward(tour, TOUR, REPLAY_ENTRY * count) == REPLAY_DONE, "forward", k);
        expect(!same_image(&before) || !same_dst(&before), "something changes", k);
        expect(same_dst(&before) == (tour[6 * k] != REPLAY_OP_STORE), "Dst by each STORE and nothing else", k);
        stands(tour, k + 1);
    }
    expect(forward(tour, TOUR, REPLAY_ENTRY * count + 1) == REPLAY_NO_STEP, "forward from the end", 0);
    stands(tour, count);
    for (unsigned k = count; k-- > 0; ) {
        expect(back(tour, TOUR, REPLAY_ENTRY * count) == REPLAY_DONE, "back", k);
        stands(tour, k);
    }
    expect(back(tour, TOUR, REPLAY_ENTRY * count) == REPLAY_NO_STEP, "back from the start", 0);
    stands(tour, 0);
    for (const char *step = "ffbfbbbbffffbbffffbfffffbfffbbbbbfffbbbbbbbbbbff"; *step; step++) {
        int on = *step == 'f';
        uint32_t answer = at == (on ? count : 0) ? REPLAY_NO_STEP : REPLAY_DONE;
        expect((on ? forward : back)(tour, TOUR, REPLAY_ENTRY * count) == answer, "to and fro", at);
        if (answer == REPLAY_DONE) at = on ? at + 1 : at - 1;
        stands(tour, at);
    }
}

/* Where a lane's cell lies, of the two the one that bit 1 of the address or bit 5 of row 0's LaneConfig chooses. */
static unsigned cell_of(const uint32_t *words, uint32_t address, unsigned lane_at)
{
    uint32_t odd = (address >> 1 | words[REPLAY_AT_LANE_CONFIG + lane_at % REPLAY_COLUMNS] >> 5) & 1;
    return (unsigned)(address / 4 * 64 + lane_at / REPLAY_COLUMNS * 16 + lane_at % REPLAY_COLUMNS * 2 + odd);
}

static void expect_entry(unsigned k, uint32_t cursor)
{
    const uint32_t *entry = entries + REPLAY_ENTRY * k, *insn = tour + 6 * k;
    uint32_t address = (insn[REPLAY_INSN_IMM] + settings[REPLAY_SETTING_OFFSET] + cursor) % 1024;
    expect(memcmp(entry + REPLAY_ENTRY_IMAGE, before.image, sizeof image) == 0, "the image before it", k);
    expect(entry[REPLAY_ENTRY_CURSOR] == cursor, "the cursor before it", k);
    expect(entry[REPLAY_ENTRY_ADDRESS] == address, "its address", k);
    for (unsigned lane_at = 0; lane_at < REPLAY_LANES; lane_at++) {
        uint32_t cell = insn[REPLAY_INSN_OP] == REPLAY_OP_STORE ? before.dst[cell_of(before.image, address, lane_at)] : 0;
        expect(entry[REPLAY_ENTRY_CELLS + lane_at] == cell, "the cells before it", 100 * k + lane_at);
    }
}

/* An entry's parts are where the header says, and the words past it stay; its words are taken as they stand. */
static void kept(void)
{
    static uint32_t earlier[REPLAY_ENTRY * TOUR / 6];
    set_out(tour, TOUR);
    for (unsigned k = 0; k < TOUR / 6; k++) {
        uint32_t cursor = walk[REPLAY_WALK_CURSOR];
        keep(&before);
        memcpy(earlier, entries, sizeof earlier);
        expect(forward(tour, TOUR, REPLAY_ENTRY * (k + 1)) == REPLAY_DONE, "room for it", k);
        expect_entry(k, cursor);
        expect(memcmp(earlier, entries, REPLAY_ENTRY * k * sizeof *entries) == 0, "the entries before it stay", k);
        for (unsigned i = REPLAY_ENTRY * (k + 1); i <= REPLAY_ENTRY * TOUR / 6; i++) expect(entries[i] == 0xA5A5A5A5, "and the words past it", i);
    }
    memcpy(earlier, entries, sizeof earlier);
    while (back(tour, TOUR, REPLAY_ENTRY * walk[REPLAY_WALK_AT]) == REPLAY_DONE) continue;
    stands(tour, 0);
    expect(memcmp(earlier, entries, sizeof earlier) == 0, "a step back leaves the store", 0);

    forward(tour, TOUR, REPLAY_ENTRY);
    entries[REPLAY_ENTRY_ADDRESS] += 7 * 1024;
    for (unsigned lane_at = 0; lane_at < REPLAY_LANES; lane_at++) entries[REPLAY_ENTRY_CELLS + lane_at] += lane_at << 16;
    expect(back(tour, TOUR, REPLAY_ENTRY) == REPLAY_DONE, "an address and cells that are too large", 0);
    stands(tour, 0);
    forward(tour, TOUR, REPLAY_ENTRY);
    entries[REPLAY_ENTRY_CURSOR] = 1024;
    expect(back(tour, TOUR, REPLAY_ENTRY) == REPLAY_DONE && walk[REPLAY_WALK_CURSOR] == 1024, "no cursor", walk[REPLAY_WALK_CURSOR]);
    expect(forward(tour, TOUR, REPLAY_ENTRY) == REPLAY_BAD_SETTING, "is seen by the step after it", 3);
    walk[REPLAY_WALK_CURSOR] = 21;
    forward(tour, TOUR, REPLAY_ENTRY);
    entries[REPLAY_ENTRY_IMAGE + (unsigned)REPLAY_AT_MISC] = 1u << 12;
    expect(back(tour, TOUR, REPLAY_ENTRY) == REPLAY_DONE && image[REPLAY_AT_MISC] == 1u << 12, "no image", image[REPLAY_AT_MISC]);
    expect(forward(tour, TOUR, REPLAY_ENTRY) == REPLAY_BAD_IMAGE, "is seen by the step after it", 6);
}

typedef uint32_t step(const uint32_t *, uint32_t *, size_t, uint16_t *, size_t, const uint32_t *, size_t, uint32_t *, size_t, uint32_t *);
static step *const steps[2] = {replay_forward, replay_back};

static void refused_step(step *one, const uint32_t *words, size_t image_len, size_t dst_len, size_t list_len, size_t size, uint32_t answer)
{
    static uint32_t stored[sizeof entries / sizeof *entries];
    uint32_t stood[2];
    keep(&before);
    memcpy(stored, entries, lent * sizeof *entries);
    memcpy(stood, walk, sizeof walk);
    expect(one(settings, image, image_len, dst, dst_len, words, list_len, entries, size, walk) == answer, "refused", answer);
    expect(same_image(&before), "the image is as it was", answer);
    expect(same_dst(&before), "Dst is as it was", answer);
    expect(memcmp(entries, stored, lent * sizeof *entries) == 0, "the store is as it was", answer);
    expect(memcmp(walk, stood, sizeof walk) == 0, "the walk is as it was", answer);
}

static void refused_both(const uint32_t *words, size_t image_len, size_t dst_len, size_t list_len, size_t size, uint32_t answer)
{
    for (unsigned i = 0; i < 2; i++) refused_step(steps[i], words, image_len, dst_len, list_len, size, answer);
}

/* A step that is refused changes nothing that it is lent: by 1 to 6, then 12, then 7 to 9, in a walk of which one step is done. */
static void refused_steps(void)
{
    static uint32_t words[REPLAY_LIST + 6];
    const size_t all = REPLAY_ENTRY * TOUR / 6;
    memcpy(words, tour, sizeof tour);
    set_out(words, TOUR);
    expect(forward(words, TOUR, all) == REPLAY_DONE, "a step", 0);
    refused_both(words, REPLAY_IMAGE - 1, REPLAY_DST, TOUR, all, REPLAY_BAD_IMAGE_LENGTH);
    refused_both(words, REPLAY_IMAGE, REPLAY_DST - 1, TOUR, all, REPLAY_BAD_DST_LENGTH);
    refused_both(words, REPLAY_IMAGE, REPLAY_DST, TOUR + 1, all, REPLAY_BAD_LIST_LENGTH);
    refused_both(words, REPLAY_IMAGE, REPLAY_DST, REPLAY_LIST + 6, all, REPLAY_TOO_MANY);
    settings[REPLAY_SETTING_CURSOR] = 1024;
    refused_both(words, REPLAY_IMAGE, REPLAY_DST, TOUR, all, REPLAY_BAD_SETTING);
    settings[REPLAY_SETTING_CURSOR] = 21;
    walk[REPLAY_WALK_CURSOR] += 1024;
    refused_both(words, REPLAY_IMAGE, REPLAY_DST, TOUR - 1, all, REPLAY_BAD_SETTING);
    walk[REPLAY_WALK_CURSOR] -= 1024;
    image[REPLAY_AT_LANE_CONFIG + 31] = 1u << 18;
    refused_both(words, REPLAY_IMAGE, REPLAY_DST, TOUR, 0, REPLAY_BAD_IMAGE);
    image[REPLAY_AT_LANE_CONFIG + 31] = 0;

    refused_step(replay_forward, words, REPLAY_IMAGE, REPLAY_DST, TOUR, 2 * REPLAY_ENTRY - 1, REPLAY_NO_STEP);
    refused_step(replay_back, words, REPLAY_IMAGE, REPLAY_DST, TOUR, REPLAY_ENTRY - 1, REPLAY_NO_STEP);
    refused_step(replay_forward, words, REPLAY_IMAGE, REPLAY_DST, 6, all, REPLAY_NO_STEP);
    refused_both(words, REPLAY_IMAGE, REPLAY_DST, 0, all, REPLAY_NO_STEP);
    walk[REPLAY_WALK_AT] = UINT32_MAX;
    refused_both(words, REPLAY_IMAGE, REPLAY_DST, TOUR, all, REPLAY_NO_STEP);
    walk[REPLAY_WALK_AT] = 0;
    refused_step(replay_back, words, REPLAY_IMAGE, REPLAY_DST, TOUR, all, REPLAY_NO_STEP);
    walk[REPLAY_WALK_AT] = 1;

    words[6 + REPLAY_INSN_OP] = LAST_OP + 1;
    refused_step(replay_forward, words, REPLAY_IMAGE, REPLAY_DST, TOUR, REPLAY_ENTRY, REPLAY_NO_STEP);
    refused_step(replay_forward, words, REPLAY_IMAGE, REPLAY_DST, TOUR, all, REPLAY_UNKNOWN_OP);
    words[6 + REPLAY_INSN_OP] = REPLAY_OP_NOP;
    refused_step(replay_forward, words, REPLAY_IMAGE, REPLAY_DST, TOUR, all, REPLAY_BAD_FIELD);
    words[6 + REPLAY_INSN_OP] = REPLAY_OP_LOAD;
    words[6 + REPLAY_INSN_MOD] = 3;
    refused_step(replay_forward, words, REPLAY_IMAGE, REPLAY_DST, TOUR, all, REPLAY_BAD_LOAD_MOD);
    expect(back(words, TOUR, REPLAY_ENTRY) == REPLAY_DONE, "back after all", 0);
    stands(tour, 0);
}

/* A sum of image and Dst, to know them again by. */
static uint64_t sum_of(void)
{
    static struct machine now;
    uint64_t sum = 0, part;
    memcpy(now.image, image, sizeof image);
    memcpy(now.dst, dst, sizeof dst);
    for (size_t i = 0; i < sizeof now; i += sizeof part) {
        memcpy(&part, (const uint8_t *)&now + i, sizeof part);
        sum = (sum ^ part) * 0x9E3779B97F4A7C15u;
        sum ^= sum >> 29;
    }
    return sum;
}

/* The longest list, there and back, in the store that the header calls enough; in one that is a word shorter, all but the last step. Here and
 * there it stands where a run of so many instructions ends; at each step forward where a run of the one leads, and at each step back where it
 * was before. */
static void whole(void)
{
    static const uint32_t mods[4] = {2, 6, 7, 9};
    static uint64_t sums[LONGEST + 1];
    static struct machine run;
    const size_t all = sizeof entries / sizeof *entries;
    uint32_t given[8];
    for (uint32_t k = 0; k < LONGEST; k++) {
        uint32_t *insn = list + 6 * k;
        memset(insn, 0, 6 * sizeof *insn);
        insn[REPLAY_INSN_OP] = k % 2 == 0 ? REPLAY_OP_LOADI : REPLAY_OP_STORE;
        insn[REPLAY_INSN_IMM] = k % 2 == 0 ? k : k % 16;
        insn[REPLAY_INSN_VB] = k % 2 == 0 ? 0 : k / 2 % 4;
        insn[REPLAY_INSN_VD] = k / 2 % 8;
        insn[REPLAY_INSN_MOD] = k % 2 == 0 ? 8 + k / 2 % 2 * 2 : mods[k / 2 % 4];
    }
    set_out(list, REPLAY_LIST);
    expect(all == 13139968 && lent == all, "the longest store", (unsigned)all);
    run = origin;
    memcpy(given, settings, sizeof given);
    sums[0] = sum_of();
    for (unsigned k = 0; k < LONGEST; k++) {
        if (k == LONGEST - 1) refused_step(replay_forward, list, REPLAY_IMAGE, REPLAY_DST, REPLAY_LIST, all - 1, REPLAY_NO_STEP);
        expect(forward(list, REPLAY_LIST, k == LONGEST - 1 ? all : all - 1) == REPLAY_DONE, "forward", k);
        replay_run(given, run.image, REPLAY_IMAGE, run.dst, REPLAY_DST, list + 6 * k, 6, outcome);
        given[REPLAY_SETTING_CURSOR] = outcome[REPLAY_OUTCOME_CURSOR];
        expect(same_image(&run) && same_dst(&run) && walk[REPLAY_WALK_CURSOR] == outcome[REPLAY_OUTCOME_CURSOR], "is a run of the one", k);
        sums[k + 1] = sum_of();
        expect(sums[k + 1] != sums[k], "something changes", k);
        if ((k + 1) % FEW == 0) stands(list, k + 1);
    }
    refused_step(replay_forward, list, REPLAY_IMAGE, REPLAY_DST, REPLAY_LIST, all, REPLAY_NO_STEP);
    refused_step(replay_back, list, REPLAY_IMAGE, REPLAY_DST, REPLAY_LIST, all - 1, REPLAY_NO_STEP);
    for (unsigned k = LONGEST; k-- > 0; ) {
        expect(back(list, REPLAY_LIST, all) == REPLAY_DONE, "back", k);
        expect(sum_of() == sums[k] && walk[REPLAY_WALK_AT] == k, "as it was before", k);
        if (k % FEW == 0) stands(list, k);
    }
    refused_step(replay_back, list, REPLAY_IMAGE, REPLAY_DST, REPLAY_LIST, all, REPLAY_NO_STEP);
    expect(same_image(&origin) && same_dst(&origin), "as it set out", 0);
}

/* A lane's words are in the image's order, its cells even and odd; both are lent both ways. */
static void lane(void)
{
    uint32_t insn[6] = {REPLAY_OP_LOADI, 40, 0, 0, 1, 10}, own[24] = {0}, head[24] = {0};
    uint32_t load[6] = {REPLAY_OP_LOAD, 2, 0, 0, 2, 6}, store[6] = {REPLAY_OP_STORE, 0, 0, 0, 1, 9};
    uint16_t cells[2] = {0x1111, 0x2222};
    start();
    expect(replay_lane(settings, 9, insn, own, head, cells) == REPLAY_DONE, "done", 0);
    expect(own[REPLAY_AT_REGISTER_1 / REPLAY_LANES] == 40, "the register's slot", own[1]);
    expect(replay_lane(settings, 9, load, own, head, cells) == REPLAY_DONE && own[2] == 0x2222, "the odd cell is read", own[2]);
    expect(cells[0] == 0x1111 && cells[1] == 0x2222, "and stays", cells[1]);
    expect(replay_lane(settings, 9, store, own, head, cells) == REPLAY_DONE && cells[0] == 40, "the even cell is written", cells[0]);
    expect(cells[1] == 0x2222, "and the odd one stays", cells[1]);
    own[1] = 41;
    store[REPLAY_INSN_VC] = 1;
    expect(replay_lane(settings, 9, store, own, head, cells) == REPLAY_BAD_FIELD, "a field", 0);
    store[REPLAY_INSN_VC] = 0;
    expect(replay_lane(settings, REPLAY_LANES, store, own, head, cells) == REPLAY_BAD_FIELD, "no such lane", 0);
    own[REPLAY_AT_MISC / REPLAY_LANES] = 1u << 12;
    expect(replay_lane(settings, 9, store, own, head, cells) == REPLAY_BAD_IMAGE, "Misc's slot", 0);
    expect(cells[0] == 40 && cells[1] == 0x2222 && own[1] == 41, "a refusal leaves cells and words", cells[0]);
}

static void config_at(uint32_t vd, unsigned at)
{
    start();
    image[REPLAY_AT_REGISTER_0] = 5;    /* row 0's register 0 is what CONFIG stores */
    run_one(REPLAY_OP_CONFIG, 0, 0, vd, 0);
    expect(image[at] == 5 && image[at + 24] == 5, "CONFIG stores there", vd);
}

/* `limit` is the first word that is not well formed, in the part's first lane and its last. */
static void limit_at(unsigned at, uint32_t limit)
{
    for (unsigned lane_at = at; lane_at < at + REPLAY_LANES; lane_at += REPLAY_LANES - 1) {
        start();
        image[lane_at] = limit - 1;
        expect(run_one(REPLAY_OP_NOP, 0, 0, 0, 0) == REPLAY_DONE, "below the limit", lane_at);
        image[lane_at] = limit;
        expect(run_one(REPLAY_OP_NOP, 0, 0, 0, 0) == REPLAY_BAD_IMAGE, "at the limit", lane_at);
    }
}

/* Each part of an image is where the header says. */
static void parts(void)
{
    static const unsigned at[16] = {REPLAY_AT_REGISTER_0, REPLAY_AT_REGISTER_1, REPLAY_AT_REGISTER_2, REPLAY_AT_REGISTER_3,
                                    REPLAY_AT_REGISTER_4, REPLAY_AT_REGISTER_5, REPLAY_AT_REGISTER_6, REPLAY_AT_REGISTER_7, 0, 0, 0,
                                    REPLAY_AT_REGISTER_11, REPLAY_AT_REGISTER_12, REPLAY_AT_REGISTER_13, REPLAY_AT_REGISTER_14, 0};
    static const unsigned configs[9] = {REPLAY_AT_TEMPLATE_0, REPLAY_AT_TEMPLATE_1, REPLAY_AT_TEMPLATE_2, REPLAY_AT_TEMPLATE_3,
                                        REPLAY_AT_SEQUENCE_0, REPLAY_AT_SEQUENCE_1, REPLAY_AT_SEQUENCE_2, REPLAY_AT_SEQUENCE_3, REPLAY_AT_MISC};
    for (uint32_t reg = 0; reg < 17; reg++) {
        size_t lanes = reg < 8 || (reg >= 11 && reg < 15) ? REPLAY_LANES : 0;
        expect(replay_register_count(REPLAY_IMAGE, reg) == lanes, "the lanes of a register", reg);
        expect(lanes == 0 || replay_register_start(REPLAY_IMAGE, reg) == at[reg], "where a register begins", reg);
    }
    expect(replay_register_count(REPLAY_IMAGE - 1, 0) == 0, "none in another image", 0);
    for (uint32_t vd = 0; vd < 9; vd++) config_at(vd, configs[vd]);
    config_at(15, REPLAY_AT_LANE_CONFIG);
    limit_at(REPLAY_AT_LANE_CONFIG, 1u << 18);
    limit_at(REPLAY_AT_LANE_FLAGS, 2);
    limit_at(REPLAY_AT_USE_FLAGS, 2);
    limit_at(REPLAY_AT_MISC, 1u << 12);
    /* flags 0 and UseFlag 1: not enabled, so nothing is stored there */
    start();
    image[REPLAY_AT_USE_FLAGS + 3] = 1;
    run_one(REPLAY_OP_LOADI, 7, 0, 2, 10);
    expect(image[REPLAY_AT_REGISTER_2 + 3] == 0 && image[REPLAY_AT_REGISTER_2 + 4] == 7, "UseFlags", 0);
}

/* A part of length 0 may be NULL, in each function and each place. */
static void nulls(void)
{
    size_t length = 99;
    start();
    expect(replay_run(settings, NULL, 0, dst, REPLAY_DST, list, 6, outcome) == REPLAY_BAD_IMAGE_LENGTH, "no image", 0);
    expect(replay_run(settings, image, REPLAY_IMAGE, NULL, 0, list, 6, outcome) == REPLAY_BAD_DST_LENGTH, "no Dst", 0);
    expect(replay_run(settings, image, REPLAY_IMAGE, dst, REPLAY_DST, NULL, 0, outcome) == REPLAY_DONE, "no list to run", 0);
    expect(replay_run(settings, NULL, 0, NULL, 0, NULL, 0, outcome) == REPLAY_BAD_IMAGE_LENGTH, "nothing to run", 0);
    expect(replay_write(settings, NULL, 0, text, REPLAY_TEXT, outcome) == REPLAY_DONE, "no list to write", 0);
    uint32_t size = outcome[REPLAY_OUTCOME_LENGTH];
    expect(replay_write(settings, NULL, 0, NULL, 0, outcome) == REPLAY_TOO_LONG, "no room for a text", 0);
    expect(replay_read(text, size, NULL, 0, settings, outcome) == REPLAY_DONE, "no room for a list of none", 0);
    expect(replay_report(text, size, NULL, 0, &length) == REPLAY_TOO_LONG && length == 0, "no room for a report", 0);
    uint32_t nop[6] = {REPLAY_OP_NOP};
    replay_write(settings, nop, 6, text, REPLAY_TEXT, outcome);
    expect(replay_read(text, outcome[REPLAY_OUTCOME_LENGTH], NULL, 0, settings, outcome) == REPLAY_TOO_LONG, "no room for a list", 0);
    expect(replay_read(NULL, 0, NULL, 0, settings, outcome) == REPLAY_BAD_TEXT, "no text to read", 0);
    expect(replay_report(NULL, 0, room, REPLAY_REPORT, &length) == REPLAY_BAD_TEXT && length == 46, "no text to report", (unsigned)length);
    expect(replay_report(NULL, 0, NULL, 0, &length) == REPLAY_TOO_LONG && length == 0, "nothing to report", 0);
}

/* The same of a walk, of which one step is done. */
static void null_walks(void)
{
    start();
    expect(replay_begin(settings, NULL, 0, dst, REPLAY_DST, tour, TOUR, outcome, walk) == REPLAY_BAD_IMAGE_LENGTH, "no image to begin", 0);
    expect(replay_begin(settings, image, REPLAY_IMAGE, NULL, 0, tour, TOUR, outcome, walk) == REPLAY_BAD_DST_LENGTH, "no Dst to begin", 0);
    expect(replay_begin(settings, NULL, 0, NULL, 0, NULL, 0, outcome, walk) == REPLAY_BAD_IMAGE_LENGTH, "nothing to begin", 0);
    expect(replay_begin(settings, image, REPLAY_IMAGE, dst, REPLAY_DST, NULL, 0, outcome, walk) == REPLAY_DONE, "no list to begin", 0);
    expect(replay_forward(settings, image, REPLAY_IMAGE, dst, REPLAY_DST, tour, TOUR, NULL, 0, walk) == REPLAY_NO_STEP, "no store at the start", 0);
    expect(forward(tour, TOUR, REPLAY_ENTRY) == REPLAY_DONE, "a step", 0);
    for (unsigned i = 0; i < 2; i++) {
        expect(steps[i](settings, NULL, 0, dst, REPLAY_DST, tour, TOUR, entries, REPLAY_ENTRY, walk) == REPLAY_BAD_IMAGE_LENGTH, "no image", i);
        expect(steps[i](settings, image, REPLAY_IMAGE, NULL, 0, tour, TOUR, entries, REPLAY_ENTRY, walk) == REPLAY_BAD_DST_LENGTH, "no Dst", i);
        expect(steps[i](settings, image, REPLAY_IMAGE, dst, REPLAY_DST, NULL, 0, entries, REPLAY_ENTRY, walk) == REPLAY_NO_STEP, "no list", i);
        expect(steps[i](settings, image, REPLAY_IMAGE, dst, REPLAY_DST, tour, TOUR, NULL, 0, walk) == REPLAY_NO_STEP, "no store", i);
        expect(steps[i](settings, NULL, 0, NULL, 0, NULL, 0, NULL, 0, walk) == REPLAY_BAD_IMAGE_LENGTH, "nothing", i);
    }
}

static size_t content(const char *name, uint8_t *bytes, size_t most)
{
    FILE *file = fopen(name, "rb");
    if (file == NULL) {
        perror(name);
        exit(2);
    }
    size_t size = fread(bytes, 1, most, file);
    fclose(file);
    return size;
}

/* The report of a listing is the one stored, in room that is just enough; in less, nothing. */
static void report(const char *listing, const char *stored)
{
    static uint8_t wanted[REPLAY_REPORT];
    size_t size = content(listing, text, sizeof text), needed = content(stored, wanted, sizeof wanted), length = 99;
    memset(room, 0xA5, sizeof room);
    expect(replay_report(text, size, room, needed - 1, &length) == REPLAY_TOO_LONG && length == 0, "a byte too short", (unsigned)length);
    for (size_t i = 0; i < sizeof room; i++) expect(room[i] == 0xA5, "room untouched", (unsigned)i);
    uint32_t answer = replay_report(text, size, room, needed, &length);
    expect(length == needed && memcmp(room, wanted, needed) == 0, "the stored report", (unsigned)length);
    expect((uint32_t)strtoul((const char *)wanted + strlen("answer="), NULL, 10) == answer, "the answer in it", answer);
    for (size_t i = needed; i < sizeof room; i++) expect(room[i] == 0xA5, "the bytes past it stay", (unsigned)i);
    memset(room, 0xA5, sizeof room);
    expect(replay_report(text, size, room, sizeof room, &length) == answer && length == needed && room[needed] == 0xA5, "room to spare", (unsigned)length);
}

/* ---- in threads, which have little stack */

/* Runs in a thread with a stack of so many bytes, lent, or its own where that is NULL. */
static void in_thread(void *(*body)(void *), void *argument, uint8_t *stack, size_t bytes)
{
    pthread_attr_t with;
    pthread_t thread;
    int error = pthread_attr_init(&with);
    if (error == 0) error = stack == NULL ? pthread_attr_setstacksize(&with, bytes) : pthread_attr_setstack(&with, stack, bytes);
    if (error == 0) error = pthread_create(&thread, &with, body, argument);
    if (error == 0) error = pthread_join(thread, NULL);
    if (error != 0) {
        fprintf(stderr, "no thread: %s\n", strerror(error));
        exit(2);
    }
    pthread_attr_destroy(&with);
}

static uint32_t there[REPLAY_LIST];

static void *write_there(void *answer)
{
    *(uint32_t *)answer = replay_write(settings, list, REPLAY_LIST, text, sizeof text, outcome);
    size = outcome[REPLAY_OUTCOME_LENGTH];
    return NULL;
}

static void *read_there(void *answer)
{
    *(uint32_t *)answer = replay_read(text, size, there, REPLAY_LIST, settings, outcome);
    return NULL;
}

/* The longest listings are written and read in threads of 128 KB. */
static void threads(void)
{
    static uint8_t written[REPLAY_TEXT];
    uint32_t given[8], answer = 99;
    start();
    medley(LONGEST);
    memcpy(given, settings, sizeof given);
    in_thread(write_there, &answer, NULL, 128 * 1024);
    expect(answer == REPLAY_DONE, "written", answer);
    expect(replay_write(settings, list, REPLAY_LIST, written, sizeof written, outcome) == REPLAY_DONE, "written here", 0);
    expect(outcome[REPLAY_OUTCOME_LENGTH] == size && memcmp(written, text, size) == 0, "byte for byte", (unsigned)size);
    answer = 99;
    in_thread(read_there, &answer, NULL, 128 * 1024);
    expect(answer == REPLAY_DONE && outcome[REPLAY_OUTCOME_LENGTH] == REPLAY_LIST, "read", answer);
    expect(memcmp(there, list, sizeof list) == 0 && memcmp(settings, given, sizeof given) == 0, "the same list and settings", 0);
    compose("", "count=1024\n", FEW);
    answer = 99;
    in_thread(read_there, &answer, NULL, 128 * 1024);
    expect(answer == REPLAY_DONE && outcome[REPLAY_OUTCOME_LENGTH] == 6 * FEW, "an old listing", answer);
}

/* Each call, as long as it can be. */
static void call_run(void) { replay_run(settings, image, REPLAY_IMAGE, dst, REPLAY_DST, list, REPLAY_LIST, outcome); }
static void call_begin(void) { replay_begin(settings, image, REPLAY_IMAGE, dst, REPLAY_DST, list, REPLAY_LIST, outcome, walk); }
static void call_read(void) { replay_read(text, size, list, REPLAY_LIST, settings, outcome); }
static void call_write(void) { replay_write(settings, list, REPLAY_LIST, text, sizeof text, outcome); }

static void call_walk(void)
{
    while (forward(list, REPLAY_LIST, REPLAY_ENTRY * FEW) == REPLAY_DONE) continue;
    while (back(list, REPLAY_LIST, REPLAY_ENTRY * FEW) == REPLAY_DONE) continue;
}

static void call_lane(void)
{
    static uint32_t own[24], head[24];
    static uint16_t cells[2];
    for (uint32_t k = 0; k < FEW; k++) replay_lane(settings, k % REPLAY_LANES, list + 6 * k, own, head, cells);
}

static void call_report(void)
{
    static size_t length;
    replay_report(text, size, room, REPLAY_REPORT, &length);
}

static struct {
    void (*call)(void);
    uint8_t *end;
    size_t depth;
} painted;

/* Paints the stack from where a call's would begin to its end. */
__attribute__((noinline)) static uint8_t *paint(void)
{
    uint8_t *from = (uint8_t *)__builtin_frame_address(0);
    for (volatile uint8_t *at = from - 512; at > painted.end; ) *--at = 0xA5;
    return from;
}

/* How deep a call writes. Once before that, since what is linked at run time is looked for at the first call. */
static void *measure(void *nothing)
{
    painted.call();
    uint8_t *from = paint(), *at = painted.end;
    painted.call();
    while (at < from && *at == 0xA5) at++;
    painted.depth = (size_t)(from - at);
    return nothing;
}

static void takes(void (*call)(void), size_t most, const char *what)
{
    static uint8_t stack[1 << 20];
    uint8_t *end = stack + (4096 - (uintptr_t)stack % 4096) % 4096;
    painted.call = call;
    painted.end = end + 4096;
    in_thread(measure, NULL, end, sizeof stack - 4096);
    printf("%s: %u bytes of stack\n", what, (unsigned)painted.depth);
    expect(painted.depth < most, what, (unsigned)painted.depth);
}

/* No call takes more of the stack than the header says. */
static void stacks(void)
{
    medley(LONGEST);
    set_out(list, REPLAY_LIST);
    takes(call_begin, STACK, "the start of a walk");
    takes(call_walk, STACK, "a step");
    takes(call_run, STACK, "a run");
    takes(call_lane, STACK, "a lane");
    takes(call_write, STACK, "writing");
    size = outcome[REPLAY_OUTCOME_LENGTH];
    takes(call_read, STACK, "reading");
    expect(outcome[REPLAY_OUTCOME_LENGTH] == REPLAY_LIST, "all of it", outcome[REPLAY_OUTCOME_LENGTH]);
    replay_write(settings, list, 6 * FEW, text, sizeof text, outcome);
    size = outcome[REPLAY_OUTCOME_LENGTH];
    takes(call_report, REPORT_STACK, "a report");
    compose("", "count=1024\n", FEW);
    takes(call_read, STACK, "reading an old listing");
}

static void names(void)
{
    for (uint32_t op = 1; op <= LAST_OP; op++) printf("op %u %s\n", (unsigned)op, replay_op_name(op));
    for (uint32_t answer = 0; answer <= LAST_ANSWER; answer++) printf("answer %u %s\n", (unsigned)answer, replay_refusal_text(answer));
    expect(strcmp(replay_refusal_text(LAST_ANSWER + 1), "unknown") == 0, "no text past the answers", 0);
}

int main(int argc, char **argv)
{
    static const struct { const char *name; void (*topic)(void); } topics[] = {
        {"version", version}, {"ops", ops}, {"answers", answers}, {"words", words}, {"sizes", sizes}, {"limits", limits},
        {"formats", formats}, {"first-lines", first_lines}, {"lengths", lengths}, {"rewritten", rewritten}, {"held", held},
        {"threads", threads}, {"stacks", stacks},
        {"stores", stores}, {"ties", ties}, {"register-stores", register_stores}, {"columns", columns},
        {"begins", begins}, {"walks", walks}, {"kept", kept}, {"refused-steps", refused_steps},
        {"whole", whole}, {"lane", lane}, {"parts", parts}, {"nulls", nulls}, {"null-walks", null_walks}, {"names", names},
    };
    if (argc == 4 && strcmp(argv[1], "report") == 0) {
        report(argv[2], argv[3]);
        return failures != 0;
    }
    for (size_t i = 0; argc == 2 && i < sizeof topics / sizeof *topics; i++)
        if (strcmp(argv[1], topics[i].name) == 0) {
            topics[i].topic();
            return failures != 0;
        }
    fprintf(stderr, "usage: library TOPIC, or library report LISTING REPORT\n");
    return 2;
}
