/* Listings as sscanf takes them apart and snprintf puts them together, line by line; names and checks are the independent program's. */
#include "listings.h"

#include "../tests/independent/independent.h"

#include <stdlib.h>
#include <string.h>

enum { SETTINGS = 8, COUNT = SETTINGS, OLD_INSNS = 1024 };

/* A line's bytes but for the name: if sscanf took as many, every number had all its digits, for it takes no more of one than its format says. */
enum { LINE_BYTES = sizeof "op= imm=00000 vb=00 vc=00 vd=00 mod=00" - 1 };

static const struct { const char *scan, *print; int length; } heads[SETTINGS + 2] = {
    {"edition=%1[0-9]%n", "edition=%u\n", 9}, {"srcb=%1[0-9]%n", "srcb=%u\n", 6}, {"offset=%4[0-9]%n", "offset=%04u\n", 11},
    {"cursor=%4[0-9]%n", "cursor=%04u\n", 11}, {"stride0=%4[0-9]%n", "stride0=%04u\n", 12}, {"stride1=%4[0-9]%n", "stride1=%04u\n", 12},
    {"stride2=%4[0-9]%n", "stride2=%04u\n", 12}, {"stride3=%4[0-9]%n", "stride3=%04u\n", 12}, {"count=%5[0-9]%n", "count=%05u\n", 11},
    {"count=%4[0-9]%n", "count=%04u\n", 10},        /* of the old format */
};

static uint32_t result(uint32_t *outcome, uint32_t answer, uint32_t place, uint32_t cursor, size_t length)
{
    outcome[O_ANSWER] = answer, outcome[O_STEPS] = 0, outcome[O_PLACE] = place, outcome[O_CURSOR] = cursor, outcome[O_LENGTH] = (uint32_t)length;
    return answer;
}

/* Reading */

struct text { const uint8_t *at, *end; };
struct line { char bytes[64]; int length; };

/* The next line, without its LF and with a 0 after it: sscanf goes through all of what it is handed, up to the 0. */
static bool next_line(struct text *t, struct line *line)
{
    size_t left = (size_t)(t->end - t->at), most = sizeof line->bytes;
    const uint8_t *end = left == 0 ? NULL : memchr(t->at, '\n', left < most ? left : most);
    if (end == NULL) return false;
    line->length = (int)(end - t->at);
    memcpy(line->bytes, t->at, (size_t)line->length);
    line->bytes[line->length] = 0;
    t->at = end + 1;
    return true;
}

static uint32_t number(const char *digits) { return (uint32_t)strtoul(digits, NULL, 10); }

static bool scan_head(const struct line *line, unsigned i, uint32_t *value)
{
    char digits[6];
    int taken = 0;
    if (sscanf(line->bytes, heads[i].scan, digits, &taken) != 1 || taken != heads[i].length || taken != line->length) return false;
    *value = number(digits);
    return true;
}

static bool scan_insn(const struct line *line, uint32_t insn[6])
{
    char name[7], imm[6], vb[3], vc[3], vd[3], mod[3];
    int taken = 0;
    if (sscanf(line->bytes, "op=%6[A-Z]%*1[ ]imm=%5[0-9]%*1[ ]vb=%2[0-9]%*1[ ]vc=%2[0-9]%*1[ ]vd=%2[0-9]%*1[ ]mod=%2[0-9]%n", name, imm, vb, vc, vd,
               mod, &taken) != 6)
        return false;
    for (insn[F_OP] = LOAD; insn[F_OP] < OPS && strcmp(name, ind_names[insn[F_OP]]) != 0;) insn[F_OP]++;
    insn[F_IMM] = number(imm), insn[F_VB] = number(vb), insn[F_VC] = number(vc), insn[F_VD] = number(vd), insn[F_MOD] = number(mod);
    return insn[F_OP] < OPS && taken == line->length && taken == LINE_BYTES + (int)strlen(name);
}

uint32_t stdio_read(const uint8_t *text, size_t text_len, uint32_t *list, size_t list_len, uint32_t settings[8], uint32_t outcome[5])
{
    static uint32_t words[6 * MAX_INSNS];
    struct text t = {text, text + text_len}, first = t;
    struct line line;
    uint32_t head[SETTINGS + 1], number = 1, place = 0;
    memset(settings, 0, SETTINGS * sizeof *settings);
    if (text_len > TEXT_LIMIT) return result(outcome, 11, 0, 0, 0);
    bool new = next_line(&t, &line) && strcmp(line.bytes, "format=2") == 0 && line.length == 8;
    if (new) number++;
    else t = first;
    for (unsigned i = 0; i <= COUNT; i++, number++)
        if (!next_line(&t, &line) || !scan_head(&line, i == COUNT && !new ? COUNT + 1 : i, &head[i])) return result(outcome, 10, number, 0, 0);
    uint32_t count = head[COUNT], cursor = head[S_CURSOR];
    if (count > (new ? MAX_INSNS : OLD_INSNS)) return settings[S_CURSOR] = cursor, result(outcome, 5, 0, cursor, 0);
    for (uint32_t i = 0; i < count; i++)
        if (!next_line(&t, &line) || !scan_insn(&line, words + 6 * i)) return result(outcome, 10, number + i, 0, 0);
    if (t.at != t.end) return result(outcome, 10, number + count, 0, 0);
    uint32_t answer = ind_settings_good(head) ? ind_list_fault(words, count, &place) : 3;
    if (answer != 0) return settings[S_CURSOR] = cursor, result(outcome, answer, place, cursor, 0);
    if (list_len < 6 * count) return result(outcome, 11, 0, 0, 0);
    memcpy(settings, head, SETTINGS * sizeof *settings);
    memcpy(list, words, 6 * count * sizeof *words);
    return result(outcome, 0, 0, cursor, 6 * count);
}

/* Writing */

/* By way of a line of its own, since snprintf puts a 0 at the end. */
#define PRINT(...) do { char line[64]; size_t n = (size_t)snprintf(line, sizeof line, __VA_ARGS__); memcpy(at, line, n), at += n; } while (0)

size_t print_listing(unsigned format, const uint32_t settings[8], const uint32_t *list, size_t count, uint8_t *text)
{
    uint8_t *at = text;
    if (format == 2) PRINT("format=2\n");
    for (unsigned i = 0; i < COUNT; i++) PRINT(heads[i].print, (unsigned)settings[i]);
    PRINT(heads[format == 2 ? COUNT : COUNT + 1].print, (unsigned)count);
    for (const uint32_t *w = list; w < list + 6 * count; w += 6)
        PRINT("op=%s imm=%05u vb=%02u vc=%02u vd=%02u mod=%02u\n", ind_names[w[F_OP]], (unsigned)w[F_IMM], (unsigned)w[F_VB], (unsigned)w[F_VC],
              (unsigned)w[F_VD], (unsigned)w[F_MOD]);
    return (size_t)(at - text);
}

uint32_t stdio_write(const uint32_t settings[8], const uint32_t *list, size_t list_len, uint8_t *text, size_t text_len, uint32_t outcome[5])
{
    uint32_t cursor = settings[S_CURSOR], place = 0;
    size_t length = strlen("format=2\n");
    if (!ind_settings_good(settings)) return result(outcome, 3, 0, cursor, 0);
    if (list_len % 6 != 0) return result(outcome, 4, 0, cursor, 0);
    if (list_len / 6 > MAX_INSNS) return result(outcome, 5, 0, cursor, 0);
    uint32_t answer = ind_list_fault(list, list_len / 6, &place);
    if (answer != 0) return result(outcome, answer, place, cursor, 0);
    for (unsigned i = 0; i <= COUNT; i++) length += (size_t)heads[i].length + 1;
    for (size_t i = 0; i < list_len; i += 6) length += LINE_BYTES + 1 + strlen(ind_names[list[i]]);
    if (text_len < length) return result(outcome, 11, 0, 0, 0);
    return result(outcome, 0, 0, cursor, print_listing(2, settings, list, list_len / 6, text));
}
