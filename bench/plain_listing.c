/* Listings read and written in C by hand, for speed.
 *
 * The reader goes over the text once and keeps the words in an array of its own, since the lent room is written only once all is checked. A
 * line's bytes after the name stand at fixed places, so that its length is tried once; literals are compared as words, and digits without a
 * branch. The writer sums up the lengths along with the checks, and then writes in place. */
#define STEPS_ONLY
#include "plain.c"

enum { OLD_INSNS = 1024, TEXT_BYTES = 1 << 20 };

/* The settings of a header, and its count, whose digits the format decides. */
enum { CURSOR = 3, SETTINGS = 8, COUNT = SETTINGS };
#define FORMAT "format=2\n"
static const struct { char name[9]; unsigned digits; } heads[SETTINGS + 1] = {
    {"edition=", 1}, {"srcb=", 1}, {"offset=", 4}, {"cursor=", 4}, {"stride0=", 4}, {"stride1=", 4}, {"stride2=", 4}, {"stride3=", 4},
    {"count=", 5},
};

/* What follows "op=" and the name, with every digit 0; and where its digits are. */
#define FIELDS_FORM "imm=00000 vb=00 vc=00 vd=00 mod=00\n"
enum { NAME_AT = 3, IMM_AT = 4, VB_AT = 13, VC_AT = 19, VD_AT = 25, MOD_AT = 32, FIELDS_BYTES = sizeof FIELDS_FORM - 1 };
enum { LEAST_LINE = NAME_AT + 3 + FIELDS_BYTES };

/* By op; a name ends with its space. */
static const struct name { char bytes[8]; unsigned length; } names[] = {
    [LOAD] = {"LOAD ", 5}, [LOADI] = {"LOADI ", 6}, [LUT] = {"LUT ", 4}, [SWAP] = {"SWAP ", 5}, [CONFIG] = {"CONFIG ", 7}, [IADD] = {"IADD ", 5},
    [ABS] = {"ABS ", 4}, [AND] = {"AND ", 4}, [OR] = {"OR ", 3}, [XOR] = {"XOR ", 4}, [NOT] = {"NOT ", 4}, [LZ] = {"LZ ", 3},
    [EXEXP] = {"EXEXP ", 6}, [EXMAN] = {"EXMAN ", 6}, [NOP] = {"NOP ", 4}, [STORE] = {"STORE ", 6},
};

/* The ops by the first letter of their name, and a 0 after them. */
static const uint8_t by_letter[32][5] = {
    ['A' - '@'] = {ABS, AND}, ['C' - '@'] = {CONFIG}, ['E' - '@'] = {EXEXP, EXMAN}, ['I' - '@'] = {IADD}, ['L' - '@'] = {LOAD, LOADI, LUT, LZ},
    ['N' - '@'] = {NOT, NOP}, ['O' - '@'] = {OR}, ['S' - '@'] = {SWAP, STORE}, ['X' - '@'] = {XOR},
};

static inline bool settings_good(const uint32_t *settings)
{
    for (unsigned i = 0; i < SETTINGS; i++)
        if (i < 2 ? settings[i] < 1 || settings[i] > 2 : settings[i] > 1023) return false;
    return true;
}

static uint32_t result(uint32_t *outcome, uint32_t answer, uint32_t place, uint32_t cursor, size_t length)
{
    outcome[0] = answer, outcome[1] = 0, outcome[2] = place, outcome[3] = cursor, outcome[4] = (uint32_t)length;
    return answer;
}

/* Reading */

/* `bad` becomes true where a byte is no digit. */
static inline uint32_t number(const uint8_t *at, unsigned digits, bool *bad)
{
    uint32_t value = 0;
    for (unsigned i = 0; i < digits; i++) {
        uint32_t digit = at[i] - (uint32_t)'0';
        *bad |= digit > 9;
        value = 10 * value + digit;
    }
    return value;
}

static inline uint64_t eight(const void *bytes)
{
    uint64_t word;
    memcpy(&word, bytes, sizeof word);
    return word;
}

/* 0: no name. Only the name's own bytes, the low ones, count. */
static inline uint32_t op_at(const uint8_t *at)
{
    for (const uint8_t *op = by_letter[*at % 32]; *op != 0; op++)
        if ((eight(at) ^ eight(names[*op].bytes)) << (64 - 8 * names[*op].length) == 0) return *op;
    return 0;
}

/* The end of the line, NULL if it isn't in form. */
static inline const uint8_t *read_line(const uint8_t *at, const uint8_t *end, uint32_t *insn)
{
    if (end - at < LEAST_LINE || memcmp(at, "op=", NAME_AT) != 0) return NULL;
    uint32_t op = op_at(at + NAME_AT);
    at += NAME_AT + names[op].length;
    if (op == 0 || end - at < FIELDS_BYTES || memcmp(at, "imm=", 4) != 0 || memcmp(at + VB_AT - 4, " vb=", 4) != 0 ||
        memcmp(at + VC_AT - 4, " vc=", 4) != 0 || memcmp(at + VD_AT - 4, " vd=", 4) != 0 || memcmp(at + MOD_AT - 5, " mod=", 5) != 0 ||
        at[FIELDS_BYTES - 1] != '\n')
        return NULL;
    bool bad = false;
    insn[OP] = op, insn[IMM] = number(at + IMM_AT, 5, &bad), insn[VB] = number(at + VB_AT, 2, &bad), insn[VC] = number(at + VC_AT, 2, &bad);
    insn[VD] = number(at + VD_AT, 2, &bad), insn[MOD] = number(at + MOD_AT, 2, &bad);
    return bad ? NULL : at + FIELDS_BYTES;
}

/* The same for a line of the header. */
static const uint8_t *read_head(const uint8_t *at, const uint8_t *end, const char *name, unsigned digits, uint32_t *value)
{
    size_t length = strlen(name);
    bool bad = false;
    if ((size_t)(end - at) < length + digits + 1 || memcmp(at, name, length) != 0 || at[length + digits] != '\n') return NULL;
    *value = number(at + length, digits, &bad);
    return bad ? NULL : at + length + digits + 1;
}

uint32_t plain_read(const uint8_t *text, size_t text_len, uint32_t *list, size_t list_len, uint32_t settings[8], uint32_t outcome[5])
{
    const uint8_t *at = text, *end = text + text_len;
    uint32_t head[SETTINGS + 1], words[WORDS * MAX_INSNS], line = 1, answer = 0, place = 0;
    memset(settings, 0, SETTINGS * sizeof *settings);
    if (text_len > TEXT_BYTES) return result(outcome, 11, 0, 0, 0);
    bool now = text_len >= strlen(FORMAT) && memcmp(text, FORMAT, strlen(FORMAT)) == 0;
    if (now) at += strlen(FORMAT), line++;
    for (unsigned i = 0; i <= COUNT; i++, line++) {
        at = read_head(at, end, heads[i].name, i == COUNT && !now ? 4 : heads[i].digits, &head[i]);
        if (at == NULL) return result(outcome, 10, line, 0, 0);
    }
    uint32_t count = head[COUNT], cursor = head[CURSOR];
    if (count > (now ? MAX_INSNS : OLD_INSNS)) return settings[CURSOR] = cursor, result(outcome, 5, 0, cursor, 0);
    for (uint32_t i = 0; i < count; i++) {
        at = read_line(at, end, words + WORDS * i);
        if (at == NULL) return result(outcome, 10, line + i, 0, 0);
        if (answer == 0 && (answer = insn_fault(words + WORDS * i)) != 0) place = i;
    }
    if (at != end) return result(outcome, 10, line + count, 0, 0);
    if (!settings_good(head)) answer = 3, place = 0;
    if (answer != 0) return settings[CURSOR] = cursor, result(outcome, answer, place, cursor, 0);
    if (list_len < WORDS * count) return result(outcome, 11, 0, 0, 0);
    memcpy(settings, head, SETTINGS * sizeof *settings);
    memcpy(list, words, WORDS * count * sizeof *words);
    return result(outcome, 0, 0, cursor, WORDS * count);
}

/* Writing */

static inline void put_number(uint8_t *at, unsigned digits, uint32_t n)
{
    for (unsigned i = digits; i-- > 0; n /= 10) at[i] = (uint8_t)('0' + n % 10);
}

/* A name is put with the bytes that fill it up: the fields then overwrite them. */
static inline uint8_t *put_line(uint8_t *at, const uint32_t *insn)
{
    const struct name *name = &names[insn[OP]];
    memcpy(at, "op=", NAME_AT);
    memcpy(at + NAME_AT, name->bytes, sizeof name->bytes);
    at += NAME_AT + name->length;
    memcpy(at, FIELDS_FORM, FIELDS_BYTES);
    put_number(at + IMM_AT, 5, insn[IMM]), put_number(at + VB_AT, 2, insn[VB]), put_number(at + VC_AT, 2, insn[VC]);
    put_number(at + VD_AT, 2, insn[VD]), put_number(at + MOD_AT, 2, insn[MOD]);
    return at + FIELDS_BYTES;
}

static uint8_t *put_head(uint8_t *at, const char *name, unsigned digits, uint32_t value)
{
    size_t length = strlen(name);
    memcpy(at, name, length);
    put_number(at + length, digits, value);
    at[length + digits] = '\n';
    return at + length + digits + 1;
}

uint32_t plain_write(const uint32_t settings[8], const uint32_t *list, size_t list_len, uint8_t *text, size_t text_len, uint32_t outcome[5])
{
    uint32_t cursor = settings[CURSOR];
    if (!settings_good(settings)) return result(outcome, 3, 0, cursor, 0);
    if (list_len % WORDS != 0) return result(outcome, 4, 0, cursor, 0);
    if (list_len / WORDS > MAX_INSNS) return result(outcome, 5, 0, cursor, 0);
    size_t length = strlen(FORMAT);
    for (unsigned i = 0; i <= COUNT; i++) length += strlen(heads[i].name) + heads[i].digits + 1;
    for (size_t i = 0; i < list_len; i += WORDS) {
        uint32_t answer = insn_fault(list + i);
        if (answer != 0) return result(outcome, answer, (uint32_t)(i / WORDS), cursor, 0);
        length += NAME_AT + names[list[i + OP]].length + FIELDS_BYTES;
    }
    if (text_len < length) return result(outcome, 11, 0, 0, 0);

    memcpy(text, FORMAT, strlen(FORMAT));
    uint8_t *at = text + strlen(FORMAT);
    for (unsigned i = 0; i <= COUNT; i++) at = put_head(at, heads[i].name, heads[i].digits, i < COUNT ? settings[i] : (uint32_t)(list_len / WORDS));
    for (size_t i = 0; i < list_len; i += WORDS) at = put_line(at, list + i);
    return result(outcome, 0, 0, cursor, length);
}
