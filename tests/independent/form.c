/* Cases as bytes, both ways: the form of tests/CASES.md. */
#include "independent.h"

#include <stdlib.h>
#include <string.h>

/* A number has seven bits a byte, the highest first; every byte but its last has 128 added. */
void ind_put(FILE *out, uint32_t n)
{
    for (int shift = 28; shift > 0; shift -= 7)
        if (n >> shift != 0) fputc((int)(n >> shift & 127) + 128, out);
    fputc((int)(n & 127), out);
}

/* The case that is being read, and the text that was last written, which is kept for the readings after it. */

static FILE *in;
static uint8_t kept[ROOM_TEXT];
static size_t kept_len;

/* Past the end every number is 0, and no case has that kind. */
static uint32_t number(void)
{
    uint32_t n = 0;
    for (int left = 5; left > 0; left--) {
        int byte = fgetc(in);
        if (byte == EOF) byte = 0;
        n = n * 128 + (uint32_t)byte % 128;
        if (byte < 128) break;
    }
    return n;
}

/* As much of a room as there is. */
static size_t at_most(size_t length, size_t most) { return length < most ? length : most; }

static size_t place(size_t most) { return at_most(number(), most); }

static void numbers(uint32_t *words, size_t count)
{
    for (size_t i = 0; i < count; i++) words[i] = number();
}

static void make_list(uint32_t *list)
{
    size_t given = place(ROOM_LIST);
    numbers(list, given);
    if (given == 0) memset(list, 0, ROOM_LIST * sizeof *list);
    /* They repeat: what is there so far comes again, as long as there is room. */
    for (size_t len = given, more; len > 0 && len < ROOM_LIST; len += more) {
        more = at_most(len, ROOM_LIST - len);
        memcpy(list + len, list, more * sizeof *list);
    }
}

/* By a seed */

static uint32_t x;

static uint32_t draw(void)
{
    x ^= x << 13;
    x ^= x >> 17;
    x ^= x << 5;
    return x;
}

static uint32_t word_of(unsigned slot)
{
    static const uint32_t limit[SLOTS] = { [SLOT_CONFIG] = 262144, [SLOT_FLAG] = 2, [SLOT_USE] = 2, [SLOT_MISC] = 4096 };
    uint32_t shape = draw() % 8, w = draw();
    if (shape == 0) w &= 0x80000000;
    else if (shape == 1) w &= 0x807FFFFF;
    else if (shape == 2) w |= 0x7F800000;
    else if (shape == 3) w %= 16;
    return slot < SLOTS && limit[slot] != 0 ? w % limit[slot] : w;
}

static uint16_t cell_of(void)
{
    uint32_t w = draw(), shape = w / 65536 % 8;
    return (uint16_t)(shape == 0 ? w & 0x8000 : shape == 1 ? w | 0x7FFF : w);
}

/* A change: a place, a count and a word. */
static void fill(uint32_t *words, size_t room, const uint32_t change[3])
{
    for (size_t i = change[0], end = at_most(i + change[1], room); i < end; i++) words[i] = change[2];
}

static void make_change(uint32_t change[3], size_t room)
{
    for (int i = 0; i < 2; i++) change[i] = (uint32_t)place(room);
    change[2] = number();
}

static void make_image(uint32_t *image)
{
    uint32_t change[3];
    x = number();
    for (unsigned i = 0; i < ROOM_IMAGE; i++) image[i] = word_of(i / LANES);
    for (uint32_t changes = number(); changes > 0; changes--) {
        make_change(change, ROOM_IMAGE);
        fill(image, ROOM_IMAGE, change);
    }
}

/* The kinds */

static void make_run(struct run_case *r)
{
    numbers(r->settings, 8);
    make_list(r->list);
    make_image(r->image);
    for (unsigned i = 0; i < ROOM_DST; i++) r->dst[i] = cell_of();
    r->image_len = place(ROOM_IMAGE);
    r->dst_len = place(ROOM_DST);
    r->list_len = place(ROOM_LIST);
}

static void make_lane(struct lane_case *l)
{
    uint32_t image[ROOM_IMAGE];
    numbers(l->settings, 8);
    numbers(l->insn, 6);
    make_image(image);
    l->lane = number();
    uint32_t head = number();
    for (unsigned s = 0; s < SLOTS; s++) {
        l->own[s] = image[LANES * s + l->lane % LANES];
        l->head[s] = image[LANES * s + head % LANES];
    }
    for (int i = 0; i < 2; i++) l->cells[i] = (uint16_t)number();
}

/* The room is what is kept, so that a writing is done where its case is read. */
static void make_writing(struct writing_case *w)
{
    numbers(w->settings, 8);
    make_list(w->list);
    w->list_len = place(ROOM_LIST);
    w->room = place(ROOM_TEXT);
    ind_write(w->settings, w->list, w->list_len, kept, w->room, w->outcome);
    kept_len = w->outcome[O_LENGTH];
    memcpy(w->text, kept, w->room);
}

/* So many bytes of the kept text from one on; where the text that is made then goes on. */
static size_t copy_kept(struct reading_case *r, size_t from, size_t count, size_t to)
{
    count = at_most(at_most(count, ROOM_TEXT - from), ROOM_TEXT - to);
    memcpy(r->text + to, kept + from, count);
    return to + count;
}

/* Past what is made are LFs, as far as the text goes. */
static void make_reading(struct reading_case *r)
{
    size_t from = 0, to = 0;
    for (uint32_t pieces = number(); pieces > 0; pieces--) {
        to = copy_kept(r, from, place(ROOM_TEXT), to);
        from = place(ROOM_TEXT);
        for (size_t count = place(ROOM_TEXT); count > 0 && to < ROOM_TEXT; count--) r->text[to++] = (uint8_t)number();
    }
    if (from < kept_len) to = copy_kept(r, from, kept_len - from, to);
    r->text_len = place(ROOM_TEXT);
    r->room = place(ROOM_LIST);
    if (to < r->text_len) memset(r->text + to, 10, r->text_len - to);
}

static struct call next_call(void)
{
    struct call c = { .kind = number() };
    switch (c.kind) {
    case CHANGE_STORE:   make_change(c.n, ROOM_STORE); break;
    case CHANGE_IMAGE:   make_change(c.n, ROOM_IMAGE); break;
    case CHANGE_WALK:
    case CHANGE_SETTING: numbers(c.n, 2); break;
    case CHANGE_LENGTHS: numbers(c.n, 4); break;
    }
    return c;
}

/* A call of another kind does nothing, and is not kept. */
static void make_calls(struct walk_case *w)
{
    w->calls = 0;
    for (uint32_t left = number(); left > 0; left--) {
        struct call c = next_call();
        if (c.kind == 0 || c.kind >= CALLS) continue;
        if (w->calls == w->call_room) {
            w->call_room = 2 * w->call_room + 32;
            w->call = realloc(w->call, w->call_room * sizeof *w->call);
            if (w->call == NULL) abort();
        }
        w->call[w->calls++] = c;
    }
}

static void make_walk(struct walk_case *w)
{
    make_run(&w->run);
    w->store_len = place(ROOM_STORE);
    for (unsigned i = 0; i < ROOM_STORE; i++) w->store[i] = UNWRITTEN;
    numbers(w->walk, 2);
    make_calls(w);
}

bool ind_call(struct walk_case *w, const struct call *c, uint32_t *answer)
{
    struct run_case *r = &w->run;
    switch (c->kind) {
    case FORWARD:
        *answer = ind_forward(r->settings, r->image, r->image_len, r->dst, r->dst_len, r->list, r->list_len, w->store, w->store_len, w->walk);
        return true;
    case BACK:
        *answer = ind_back(r->settings, r->image, r->image_len, r->dst, r->dst_len, r->list, r->list_len, w->store, w->store_len, w->walk);
        return true;
    case CHANGE_STORE:   fill(w->store, ROOM_STORE, c->n); break;
    case CHANGE_IMAGE:   fill(r->image, ROOM_IMAGE, c->n); break;
    case CHANGE_WALK:    memcpy(w->walk, c->n, sizeof w->walk); break;
    case CHANGE_SETTING: r->settings[c->n[0] % 8] = c->n[1]; break;
    case CHANGE_LENGTHS:
        r->image_len = at_most(c->n[0], ROOM_IMAGE);
        r->dst_len = at_most(c->n[1], ROOM_DST);
        r->list_len = at_most(c->n[2], ROOM_LIST);
        w->store_len = at_most(c->n[3], ROOM_STORE);
        break;
    }
    return false;
}

bool ind_next(FILE *from, struct any_case *c)
{
    in = from;
    switch (c->kind = number()) {
    case 0:            return false;
    case RUN_CASE:     make_run(&c->run); break;
    case LANE_CASE:    make_lane(&c->lane); break;
    case WRITING_CASE: make_writing(&c->writing); break;
    case WALK_CASE:    make_walk(&c->walk); break;
    default:           make_reading(&c->reading);
    }
    return true;
}
