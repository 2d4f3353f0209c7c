#include "listings.h"

#include "lists.h"
#include "plain.h"
#include "times.h"

#include "../tests/independent/independent.h"

#include <stdlib.h>
#include <string.h>

/* The library's; and where CLANG is defined, plain_listing.c a second time, compiled by clang. */
read_fn proved_read, plain_clang_read;
write_fn proved_write, plain_clang_write;

enum { READ, WRITE, SIDES };

/* The last is the independent program, which says what is right. */
static const struct scribe {
    const char *name[SIDES];
    read_fn *read;
    write_fn *write;
} scribes[] = {
    {{"proved", "proved"}, proved_read, proved_write},
    {{"plain", "plain"}, plain_read, plain_write},
#ifdef CLANG
    {{"plain by clang", "plain by clang"}, plain_clang_read, plain_clang_write},
#endif
    {{"sscanf", "snprintf"}, stdio_read, stdio_write},
    {{"independent", "independent"}, ind_read, ind_write},
};
enum { SCRIBES = sizeof scribes / sizeof *scribes, INDEPENDENT = SCRIBES - 1 };

/* Compared */

/* A room has this much behind what is lent of it: what is written there shows. */
enum { SPARE = 64 };

/* What a reading or a writing leaves. */
static struct left {
    _Alignas(64) uint8_t text[ROOM_TEXT + SPARE];
    _Alignas(64) uint32_t list[ROOM_LIST + SPARE];
    uint32_t settings[8], outcome[5], answer;
} right, left;

struct met { unsigned readings, writings, refused; };

static void spoil(struct left *l)
{
    memset(l->settings, 0xFF, sizeof l->settings);
    memset(l->outcome, 0xFF, sizeof l->outcome);
}

static void read_by(const struct scribe *by, const uint8_t *text, size_t text_len, size_t room, struct left *l)
{
    spoil(l);
    memset(l->list, 0xFF, (room + SPARE) * sizeof *l->list);
    l->answer = by->read(text, text_len, l->list, room, l->settings, l->outcome);
}

static void write_by(const struct scribe *by, const uint32_t settings[8], const uint32_t *list, size_t list_len, size_t room, struct left *l)
{
    spoil(l);
    memset(l->text, 0xFF, room + SPARE);
    l->answer = by->write(settings, list, list_len, l->text, room, l->outcome);
}

static void must_match(bool same_room, unsigned i, int side, size_t at)
{
    if (same_room && left.answer == right.answer && memcmp(left.settings, right.settings, sizeof left.settings) == 0 &&
        memcmp(left.outcome, right.outcome, sizeof left.outcome) == 0)
        return;
    fprintf(stderr, "bench: %s differs from the independent program (answers %u and %u) on listing %zu\n", scribes[i].name[side],
            (unsigned)left.answer, (unsigned)right.answer, at);
    exit(1);
}

static void must_read_alike(const uint8_t *text, size_t text_len, size_t room, struct met *met)
{
    read_by(&scribes[INDEPENDENT], text, text_len, room, &right);
    for (unsigned i = 0; i < INDEPENDENT; i++) {
        read_by(&scribes[i], text, text_len, room, &left);
        must_match(memcmp(left.list, right.list, (room + SPARE) * sizeof *left.list) == 0, i, READ, met->readings);
    }
    met->readings++, met->refused += right.answer != 0;
}

static void must_write_alike(const uint32_t settings[8], const uint32_t *list, size_t list_len, size_t room, struct met *met)
{
    write_by(&scribes[INDEPENDENT], settings, list, list_len, room, &right);
    for (unsigned i = 0; i < INDEPENDENT; i++) {
        write_by(&scribes[i], settings, list, list_len, room, &left);
        must_match(memcmp(left.text, right.text, room + SPARE) == 0, i, WRITE, met->writings);
    }
    met->writings++, met->refused += right.answer != 0;
}

static void compare_random(unsigned count, struct met *met)
{
    static struct any_case c;
    FILE *cases = tmpfile();
    if (cases == NULL) exit(1);
    ind_cases(20261117, 0, 0, count, 0, cases);
    for (rewind(cases); ind_next(cases, &c);)
        if (c.kind == READING_CASE) must_read_alike(c.reading.text, c.reading.text_len, c.reading.room, met);
        else must_write_alike(c.writing.settings, c.writing.list, c.writing.list_len, c.writing.room, met);
    fclose(cases);
}

/* A listing with a line for each op: each byte changed to each other one, and the text cut before it. */
static void compare_bytes(unsigned format, struct met *met)
{
    static uint8_t text[1024];
    uint32_t list[OPS - 1][6] = {0};
    for (uint32_t op = LOAD; op < OPS; op++) list[op - 1][F_OP] = op, list[op - 1][F_MOD] = op == LOADI ? 8 : op == STORE ? 2 : 0;
    size_t length = print_listing(format, list_settings, list[0], OPS - 1, text), room = sizeof list / sizeof **list;
    for (size_t i = 0; i < length; i++) {
        uint8_t was = text[i];
        for (unsigned other = 0; other < 256; other++) {
            text[i] = (uint8_t)other;
            must_read_alike(text, length, room, met);
        }
        text[i] = was;
        must_read_alike(text, i, room, met);
    }
}

void compare_listings(unsigned count)
{
    struct met met = {0};
    compare_random(count, &met);
    compare_bytes(1, &met);
    compare_bytes(2, &met);
    printf("%u readings and %u writings, %u of them refused: all agree.\n", met.readings, met.writings, met.refused);
}

/* Timed */

/* The listing that is read. Lists and listings go to one and the same place, whoever reads or writes. */
static struct {
    _Alignas(64) uint8_t text[ROOM_TEXT];
    size_t length;
} lent;

static double read_several(const struct task *task, unsigned times)
{
    const struct scribe *by = task->by;
    double start = now_ns();
    for (unsigned t = 0; t < times; t++) by->read(lent.text, lent.length, left.list, ROOM_LIST, left.settings, left.outcome);
    return (now_ns() - start) / times;
}

static double write_several(const struct task *task, unsigned times)
{
    const struct scribe *by = task->by;
    double start = now_ns();
    for (unsigned t = 0; t < times; t++) by->write(list_settings, task->list->words, 6 * task->count, left.text, ROOM_TEXT, left.outcome);
    return (now_ns() - start) / times;
}

/* The longest mix; shorter ones begin as it does. */
static const struct list *longest(void)
{
    const struct list *l;
    for (unsigned k = 0; (l = make_list(k, OPS - 1)) != NULL; k++)
        if (l->count == LIST_MOST) return l;
    exit(1);
}

/* Lends the listing of a list's first instructions: all read that list from it, and write that listing. */
static void lend_listing(const struct list *l, size_t count)
{
    struct met met = {0};
    lent.length = print_listing(2, list_settings, l->words, count, lent.text);
    must_read_alike(lent.text, lent.length, 6 * count, &met);
    must_write_alike(list_settings, l->words, 6 * count, lent.length, &met);
    if (met.refused == 0 && memcmp(left.list, l->words, 6 * count * sizeof *l->words) == 0 && memcmp(left.text, lent.text, lent.length) == 0) return;
    fprintf(stderr, "bench: the listing of %zu instructions is not the list's\n", count);
    exit(1);
}

static void print_side(int side, const struct list *l, unsigned rounds, unsigned us)
{
    static double (*const several[SIDES])(const struct task *, unsigned) = {read_several, write_several};
    static const size_t counts[] = {1024, 4096, LIST_MOST};
    double ns[SCRIBES][rounds];
    printf("\nns an instruction of a listing that is %s, the best of %u rounds, and in brackets MB a second. Ratios: the middle one of the\n"
           "rounds.\n\n| instructions | bytes |",
           side == READ ? "read" : "written", rounds);
    for (unsigned i = 0; i < SCRIBES; i++) printf(" %s |", scribes[i].name[side]);
    for (unsigned i = 1; i < SCRIBES; i++) printf(i == 1 ? " **proved / %s** |" : " proved / %s |", scribes[i].name[side]);
    printf("\n|---|");
    for (unsigned i = 0; i < 2 * SCRIBES; i++) printf("---|");
    printf("\n");
    for (unsigned k = 0; k < sizeof counts / sizeof *counts; k++) {
        struct task tasks[SCRIBES];
        lend_listing(l, counts[k]);
        for (unsigned i = 0; i < SCRIBES; i++) tasks[i] = (struct task){several[side], &scribes[i], counts[k], l, QUIET};
        take_turns(tasks, SCRIBES, rounds, us, ns);
        printf("| %zu | %zu |", counts[k], lent.length);
        for (unsigned i = 0; i < SCRIBES; i++) {
            double least = best(rounds, ns[i]);
            printf(" %.1f (%.0f) |", least, 1e3 * (double)lent.length / ((double)counts[k] * least));
        }
        for (unsigned i = 1; i < SCRIBES; i++) printf(i == 1 ? " **%.2f** |" : " %.2f |", ratio(rounds, ns[0], ns[i]));
        printf("\n");
        fflush(stdout);
    }
}

void print_listings(unsigned rounds, unsigned us)
{
    const struct list *l = longest();
    for (int side = READ; side < SIDES; side++) print_side(side, l, rounds, us);
}
