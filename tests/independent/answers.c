/* Cases run by the independent program and answered, a line for each; and one of them shown. */
#include "independent.h"

#include <inttypes.h>
#include <string.h>

#define NOTHING 2166136261u     /* the checksum of nothing */

static uint32_t mixed(uint32_t h, uint32_t w) { return (h ^ w) * 16777619u; }

static uint32_t checksum(uint32_t h, const uint32_t *words, size_t len)
{
    for (size_t i = 0; i < len; i++) h = mixed(h, words[i]);
    return h;
}

static uint32_t cell_checksum(uint32_t h, const uint16_t *cells, size_t len)
{
    for (size_t i = 0; i < len; i++) h = mixed(h, cells[i]);
    return h;
}

static uint32_t byte_checksum(const uint8_t *bytes, size_t len)
{
    uint32_t h = NOTHING;
    for (size_t i = 0; i < len; i++) h = mixed(h, bytes[i]);
    return h;
}

static void print(FILE *out, uint32_t kind, const uint32_t *numbers, int count, uint32_t sum)
{
    fprintf(out, "%" PRIu32, kind);
    for (int i = 0; i < count; i++) fprintf(out, " %" PRIu32, numbers[i]);
    fprintf(out, " %08" PRIx32 "\n", sum);
}

static void answer_run(struct run_case *r, FILE *out)
{
    uint32_t o[RUN_OUTCOME];
    ind_run(r->settings, r->image, r->image_len, r->dst, r->dst_len, r->list, r->list_len, o);
    print(out, RUN_CASE, o, RUN_OUTCOME, cell_checksum(checksum(NOTHING, r->image, r->image_len), r->dst, r->dst_len));
}

static void answer_lane(struct lane_case *l, FILE *out)
{
    uint32_t answer = ind_lane(l->settings, l->lane, l->insn, l->own, l->head, l->cells);
    print(out, LANE_CASE, &answer, 1, cell_checksum(checksum(NOTHING, l->own, SLOTS), l->cells, 2));
}

static void answer_reading(const struct reading_case *r, FILE *out)
{
    static uint32_t list[ROOM_LIST];
    uint32_t settings[8], o[5];
    for (size_t i = 0; i < r->room; i++) list[i] = UNWRITTEN;
    ind_read(r->text, r->text_len, list, r->room, settings, o);
    print(out, READING_CASE, o, 5, checksum(checksum(NOTHING, settings, 8), list, r->room));
}

/* The checksum goes on over what each call answered and left. */
static uint32_t walk_checksum(uint32_t h, uint32_t answer, const struct walk_case *w)
{
    h = checksum(mixed(h, answer), w->walk, 2);
    h = checksum(h, w->run.image, w->run.image_len);
    h = checksum(h, w->store, w->store_len);
    return cell_checksum(h, w->run.dst, w->run.dst_len);
}

static uint32_t begin(struct walk_case *w, uint32_t outcome[4])
{
    const struct run_case *r = &w->run;
    return ind_begin(r->settings, r->image, r->image_len, r->dst_len, r->list, r->list_len, outcome, w->walk);
}

static void answer_walk(struct walk_case *w, FILE *out)
{
    uint32_t o[6], answer, h = walk_checksum(NOTHING, begin(w, o), w);
    for (size_t i = 0; i < w->calls; i++)
        if (ind_call(w, &w->call[i], &answer)) h = walk_checksum(h, answer, w);
    memcpy(o + 4, w->walk, sizeof w->walk);
    print(out, WALK_CASE, o, 6, h);
}

static void answer(struct any_case *c, FILE *out)
{
    switch (c->kind) {
    case RUN_CASE:     answer_run(&c->run, out); break;
    case LANE_CASE:    answer_lane(&c->lane, out); break;
    case WRITING_CASE: print(out, WRITING_CASE, c->writing.outcome, 5, byte_checksum(c->writing.text, c->writing.room)); break;
    case WALK_CASE:    answer_walk(&c->walk, out); break;
    default:           answer_reading(&c->reading, out);
    }
}

void ind_answers(FILE *in, FILE *out)
{
    static struct any_case c;
    while (ind_next(in, &c)) answer(&c, out);
}

/* The list in the form of a listing, whatever its numbers: one that is in order, and that the program can hold, can be given to replay as it is. */
static void show_list(const uint32_t settings[8], const uint32_t *list, size_t list_len, FILE *out)
{
    static const char *const names[8] = { "edition", "srcb", "offset", "cursor", "stride0", "stride1", "stride2", "stride3" };
    fprintf(out, "format=2\n");
    for (int i = 0; i < 8; i++) fprintf(out, i < 2 ? "%s=%" PRIu32 "\n" : "%s=%04" PRIu32 "\n", names[i], settings[i]);
    fprintf(out, "count=%05zu\n", list_len / 6);
    for (size_t i = 0; i + 6 <= list_len; i += 6) {
        const uint32_t *n = list + i;
        if (ind_op_known(n[F_OP])) fprintf(out, "op=%s", ind_names[n[F_OP]]);
        else fprintf(out, "op=%" PRIu32, n[F_OP]);
        fprintf(out, " imm=%05" PRIu32 " vb=%02" PRIu32 " vc=%02" PRIu32 " vd=%02" PRIu32 " mod=%02" PRIu32 "\n",
                n[F_IMM], n[F_VB], n[F_VC], n[F_VD], n[F_MOD]);
    }
}

static void show_cells(const char *what, const uint16_t *cells, FILE *out)
{
    fprintf(out, "%s", what);
    for (int i = 0; i < 16; i++) fprintf(out, " %04X", cells[i]);
    fprintf(out, "\n");
}

static void show_rows(const uint16_t *before, const uint16_t *after, FILE *out)
{
    for (size_t at = 0; at < DST_CELLS; at += 16) {
        if (memcmp(before + at, after + at, 16 * sizeof *after) == 0) continue;
        fprintf(out, "row=%04zu\n", at / 16);
        show_cells("  before", before + at, out);
        show_cells("  after ", after + at, out);
    }
}

static void show_lent(const struct run_case *r, FILE *out)
{
    show_list(r->settings, r->list, r->list_len, out);
    fprintf(out, "list of %zu words, image of %zu words, Dst of %zu cells\n", r->list_len, r->image_len, r->dst_len);
    for (unsigned s = 0; s < SLOTS; s++) {
        fprintf(out, "slot=%02u", s);
        for (unsigned l = 0; l < LANES; l++) fprintf(out, " %08" PRIX32, r->image[LANES * s + l]);
        fprintf(out, "\n");
    }
}

/* And the rows of Dst that it changes. */
static void show_run(const struct run_case *c, FILE *out)
{
    static struct run_case r;
    uint32_t o[RUN_OUTCOME];
    show_lent(c, out);
    r = *c;
    if (ind_run(r.settings, r.image, r.image_len, r.dst, r.dst_len, r.list, r.list_len, o) == 0) show_rows(c->dst, r.dst, out);
}

static void show_change(const struct call *c, FILE *out)
{
    const uint32_t *n = c->n;
    switch (c->kind) {
    case CHANGE_STORE:
    case CHANGE_IMAGE:
        fprintf(out, "%s: %" PRIu32 " words from %" PRIu32 " on are %08" PRIX32 "\n", c->kind == CHANGE_STORE ? "store" : "image", n[1], n[0], n[2]);
        break;
    case CHANGE_WALK:    fprintf(out, "walk: at=%" PRIu32 " cursor=%" PRIu32 "\n", n[0], n[1]); break;
    case CHANGE_SETTING: fprintf(out, "settings: number %" PRIu32 " is %" PRIu32 "\n", n[0] % 8, n[1]); break;
    case CHANGE_LENGTHS:
        fprintf(out, "lengths: image %" PRIu32 ", Dst %" PRIu32 ", list %" PRIu32 ", store %" PRIu32 "\n", n[0], n[1], n[2], n[3]);
        break;
    }
}

/* What a call answered, the walk then, and the checksum so far. */
static void show_answered(const char *what, uint32_t answer, const uint32_t walk[2], uint32_t h, FILE *out)
{
    fprintf(out, "%s: answer=%" PRIu32 " at=%" PRIu32 " cursor=%" PRIu32 " %08" PRIx32 "\n", what, answer, walk[W_AT], walk[W_CURSOR], h);
}

/* And call by call, with the rows of Dst that each changes. */
static void show_walk(const struct walk_case *c, FILE *out)
{
    static struct walk_case w;
    static uint16_t before[ROOM_DST];
    uint32_t o[4], answer, h;
    show_lent(&c->run, out);
    fprintf(out, "store of %zu words, walk at=%" PRIu32 " cursor=%" PRIu32 "\n", c->store_len, c->walk[W_AT], c->walk[W_CURSOR]);
    w = *c;
    answer = begin(&w, o), h = walk_checksum(NOTHING, answer, &w);
    show_answered("begin", answer, w.walk, h, out);
    for (size_t i = 0; i < w.calls; i++) {
        memcpy(before, w.run.dst, sizeof before);
        if (!ind_call(&w, &w.call[i], &answer)) {
            show_change(&w.call[i], out);
            continue;
        }
        h = walk_checksum(h, answer, &w);
        show_answered(w.call[i].kind == FORWARD ? "forward" : "back", answer, w.walk, h, out);
        show_rows(before, w.run.dst, out);
    }
}

static void show_lane(const struct lane_case *l, FILE *out)
{
    struct lane_case a = *l;
    show_list(l->settings, l->insn, 6, out);
    ind_lane(a.settings, a.lane, a.insn, a.own, a.head, a.cells);
    fprintf(out, "lane=%" PRIu32 " even=%04X odd=%04X after: even=%04X odd=%04X\n", l->lane, l->cells[0], l->cells[1], a.cells[0], a.cells[1]);
    for (int s = 0; s < SLOTS; s++)
        fprintf(out, "slot=%02d own=%08" PRIX32 " head=%08" PRIX32 " after=%08" PRIX32 "%s\n", s, l->own[s], l->head[s], a.own[s],
                a.own[s] != l->own[s] ? " changed" : "");
}

/* The LFs that fill a text up are told, not printed. */
static void show_text(const struct reading_case *r, FILE *out)
{
    size_t len = r->text_len;
    while (len > 1 && r->text[len - 1] == 10 && r->text[len - 2] == 10) len--;
    fwrite(r->text, 1, len, out);
    fprintf(out, "\n%zu bytes, ", r->text_len);
    if (len < r->text_len) fprintf(out, "the last %zu of them LFs that are not shown, ", r->text_len - len);
    fprintf(out, "read into %zu words\n", r->room);
}

static void show(const struct any_case *c, FILE *out)
{
    switch (c->kind) {
    case RUN_CASE:
        show_run(&c->run, out);
        break;
    case LANE_CASE:
        show_lane(&c->lane, out);
        break;
    case WRITING_CASE:
        show_list(c->writing.settings, c->writing.list, c->writing.list_len, out);
        fprintf(out, "list of %zu words, written into %zu bytes\n", c->writing.list_len, c->writing.room);
        break;
    case WALK_CASE:
        show_walk(&c->walk, out);
        break;
    default:
        show_text(&c->reading, out);
    }
}

bool ind_show(FILE *in, uint32_t line, FILE *out)
{
    static struct any_case c;
    do {
        if (!ind_next(in, &c)) return false;
    } while (--line > 0);
    show(&c, out);
    answer(&c, out);
    return true;
}
