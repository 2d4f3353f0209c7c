/* Listings and the report: document 01, "Listings", and M-105. */
#include "independent.h"

#include <string.h>

const char *const ind_names[OPS] = {
    NULL, "LOAD", "LOADI", "LUT", "SWAP", "CONFIG", "IADD", "ABS", "AND", "OR", "XOR", "NOT", "LZ", "EXEXP", "EXMAN", "NOP", "STORE",
};

/* A format: the first line that marks it, the digits of its count, and how many instructions a listing of it may have. */
struct format {
    const char *mark;
    unsigned count_digits;
    uint32_t limit;
};

/* The first has no mark: it is the format of every text that has none of the others'. The last is the one that is written. */
enum { FORMATS = 2, WRITTEN = FORMATS - 1 };
static const struct format formats[FORMATS] = {
    { "", 4, 1024 },
    { "format=2\n", 5, MAX_INSNS },
};

/* The lines after the mark; count's digits are the format's. */
enum { HEADER = 9, COUNT = HEADER - 1 };
static const char *const header_names[HEADER] = {
    "edition=", "srcb=", "offset=", "cursor=", "stride0=", "stride1=", "stride2=", "stride3=", "count=",
};
static const unsigned header_digits[HEADER] = { 1, 1, 4, 4, 4, 4, 4, 4, 0 };

static const char *const field_names[6] = { "op=", " imm=", " vb=", " vc=", " vd=", " mod=" };
static const unsigned field_digits[6] = { 0, 5, 2, 2, 2, 2 };

static unsigned digits_of(const struct format *f, uint32_t line) { return line == COUNT ? f->count_digits : header_digits[line]; }

/* Reading */

struct reader {
    const uint8_t *text;
    size_t len, at;
};

static bool take(struct reader *r, const char *bytes)
{
    size_t n = strlen(bytes);
    if (r->len - r->at < n || memcmp(r->text + r->at, bytes, n) != 0) return false;
    r->at += n;
    return true;
}

static bool take_number(struct reader *r, unsigned digits, uint32_t *number)
{
    if (r->len - r->at < digits) return false;
    *number = 0;
    for (unsigned i = 0; i < digits; i++) {
        uint8_t c = r->text[r->at++];
        if (c < '0' || c > '9') return false;
        *number = *number * 10 + (c - '0');
    }
    return true;
}

/* A mark is a whole line, so no two of them can be meant. */
static const struct format *take_mark(struct reader *r)
{
    int f = FORMATS - 1;
    while (f > 0 && !take(r, formats[f].mark)) f--;
    return &formats[f];
}

/* LOAD begins LOADI, so a name counts only together with what follows it. */
static bool take_name(struct reader *r, uint32_t *op)
{
    for (*op = 1; *op < OPS; (*op)++) {
        struct reader ahead = *r;
        if (take(&ahead, ind_names[*op]) && take(&ahead, " ")) {
            r->at += strlen(ind_names[*op]);
            return true;
        }
    }
    return false;
}

static bool take_insn(struct reader *r, uint32_t insn[6])
{
    if (!take(r, field_names[F_OP]) || !take_name(r, &insn[F_OP])) return false;
    for (int f = F_IMM; f <= F_MOD; f++)
        if (!take(r, field_names[f]) || !take_number(r, field_digits[f], &insn[f])) return false;
    return take(r, "\n");
}

static uint32_t result(uint32_t outcome[5], uint32_t answer, uint32_t place, uint32_t cursor, size_t length)
{
    outcome[O_ANSWER] = answer;
    outcome[O_STEPS] = 0;
    outcome[O_PLACE] = place;
    outcome[O_CURSOR] = cursor;
    outcome[O_LENGTH] = (uint32_t)length;
    return answer;
}

uint32_t ind_read(const uint8_t *text, size_t text_len, uint32_t *list, size_t list_len, uint32_t settings[8], uint32_t outcome[5])
{
    static uint32_t words[6 * MAX_INSNS];
    struct reader r = { text, text_len, 0 };
    uint32_t header[HEADER], place;

    memset(settings, 0, 8 * sizeof *settings);
    if (text_len > TEXT_LIMIT) return result(outcome, 11, 0, 0, 0);
    const struct format *format = take_mark(&r);
    const uint32_t first = r.at == 0 ? 1 : 2;               /* the header's line, in the text as it stands */
    for (uint32_t i = 0; i < HEADER; i++)
        if (!take(&r, header_names[i]) || !take_number(&r, digits_of(format, i), &header[i]) || !take(&r, "\n"))
            return result(outcome, 10, first + i, 0, 0);

    /* From here a refusal gives the cursor as it was read, save 10 and 11. */
    const uint32_t count = header[COUNT], cursor = header[S_CURSOR];
    if (count > format->limit) {
        settings[S_CURSOR] = cursor;
        return result(outcome, 5, 0, cursor, 0);
    }
    for (uint32_t i = 0; i < count; i++)
        if (!take_insn(&r, words + 6 * i)) return result(outcome, 10, first + HEADER + i, 0, 0);
    if (r.at != r.len) return result(outcome, 10, first + HEADER + count, 0, 0);

    uint32_t fault = 3;
    place = 0;
    if (ind_settings_good(header)) fault = ind_list_fault(words, count, &place);
    if (fault != 0) {
        settings[S_CURSOR] = cursor;
        return result(outcome, fault, place, cursor, 0);
    }
    if (list_len < 6 * (size_t)count) return result(outcome, 11, 0, 0, 0);

    memcpy(settings, header, 8 * sizeof *settings);
    if (count > 0) memcpy(list, words, 6 * (size_t)count * sizeof *list);
    return result(outcome, 0, 0, cursor, 6 * (size_t)count);
}

/* Writing: into a buffer of the writer's own, so that a short room stays untouched */

struct writer {
    uint8_t text[TEXT_LIMIT];
    size_t at;
};

static void put(struct writer *w, const char *bytes)
{
    size_t n = strlen(bytes);
    memcpy(w->text + w->at, bytes, n);
    w->at += n;
}

static void put_number(struct writer *w, unsigned digits, uint32_t number)
{
    for (unsigned i = digits; i-- > 0; number /= 10) w->text[w->at + i] = (uint8_t)('0' + number % 10);
    w->at += digits;
}

uint32_t ind_write(const uint32_t settings[8], const uint32_t *list, size_t list_len, uint8_t *text, size_t text_len, uint32_t outcome[5])
{
    static struct writer w;
    const struct format *format = &formats[WRITTEN];
    const uint32_t cursor = settings[S_CURSOR];
    uint32_t place;

    if (!ind_settings_good(settings)) return result(outcome, 3, 0, cursor, 0);
    if (list_len % 6 != 0) return result(outcome, 4, 0, cursor, 0);
    if (list_len / 6 > format->limit) return result(outcome, 5, 0, cursor, 0);
    uint32_t fault = ind_list_fault(list, list_len / 6, &place);
    if (fault != 0) return result(outcome, fault, place, cursor, 0);

    w.at = 0;
    put(&w, format->mark);
    for (uint32_t i = 0; i < HEADER; i++) {
        put(&w, header_names[i]);
        put_number(&w, digits_of(format, i), i == COUNT ? (uint32_t)(list_len / 6) : settings[i]);
        put(&w, "\n");
    }
    for (size_t i = 0; i < list_len; i += 6) {
        put(&w, field_names[F_OP]);
        put(&w, ind_names[list[i]]);
        for (int f = F_IMM; f <= F_MOD; f++) {
            put(&w, field_names[f]);
            put_number(&w, field_digits[f], list[i + f]);
        }
        put(&w, "\n");
    }
    if (text_len < w.at) return result(outcome, 11, 0, 0, 0);
    memcpy(text, w.text, w.at);
    return result(outcome, 0, 0, cursor, w.at);
}

/* The program: a listing in, and out the report, from an image and a Dst of zeros, or the listing in the format that is written */

static uint32_t program_list[6 * PROGRAM_INSNS];

/* Its own length is tried before the text is looked at, and its room last of all, as the library does. */
static uint32_t program_read(FILE *in, uint32_t settings[8], uint32_t outcome[5])
{
    static uint8_t text[PROGRAM_TEXT + 1];          /* one more than allowed, to see that there was more */
    size_t len = fread(text, 1, sizeof text, in);
    if (len > PROGRAM_TEXT) return result(outcome, 11, 0, 0, 0);
    return ind_read(text, len, program_list, sizeof program_list / sizeof *program_list, settings, outcome);
}

static void print_outcome(const uint32_t *outcome, FILE *out)
{
    fprintf(out, "answer=%u\nsteps=%05u\nplace=%05u\ncursor=%04u\n", outcome[O_ANSWER], outcome[O_STEPS], outcome[O_PLACE], outcome[O_CURSOR]);
}

void ind_replay(FILE *in, FILE *out)
{
    static uint32_t image[IMAGE_WORDS];
    static uint16_t dst[DST_CELLS];
    uint32_t settings[8], outcome[RUN_OUTCOME];

    memset(image, 0, sizeof image);
    memset(dst, 0, sizeof dst);
    if (program_read(in, settings, outcome) == 0)
        ind_run(settings, image, IMAGE_WORDS, dst, DST_CELLS, program_list, outcome[O_LENGTH], outcome);
    print_outcome(outcome, out);
    for (unsigned slot = 0; slot < SLOT_CONFIG; slot++)
        for (unsigned lane = 0; lane < LANES; lane++)
            if (image[slot * LANES + lane] != 0)
                fprintf(out, "reg=%02u lane=%02u word=%08X\n", slot < 8 ? slot : slot + 3, lane, image[slot * LANES + lane]);
}

void ind_rewrite(FILE *in, FILE *out)
{
    static uint8_t text[TEXT_LIMIT];
    uint32_t settings[8], outcome[5];

    if (program_read(in, settings, outcome) != 0 || ind_write(settings, program_list, outcome[O_LENGTH], text, sizeof text, outcome) != 0)
        print_outcome(outcome, out);
    else
        fwrite(text, 1, outcome[O_LENGTH], out);
}
