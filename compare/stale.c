/* stale SESSIONS SEED: whether roq_stale says where the next redraw or portion writes. Random sessions are made on the
 * exported library. Before each redraw and portion it is asked of the whole screen and of random areas; then the call is
 * made on a copy of the session, on a screen of a value that no pixel of the store has, and the pixels that have another
 * one are those that it wrote. The smallest rectangle around them is found pixel by pixel. The session may be no other
 * after it was asked. It prints the seed and what was compared, or the first difference, which ends it. */
#include "roqshyn.h"

#include <inttypes.h>
#include <stdio.h>
#include <stdlib.h>
#include <string.h>

enum { C = 400, STORE = 16 * C, WIDTH = 48, HEIGHT = 40, PIXELS = WIDTH * HEIGHT, AREAS = 6, STEPS = 120 };
/* Neither a colour nor what dimming makes of one: these have a top byte below 128. */
#define UNWRITTEN UINT32_C(0xff00ff00)

static RoqSession session;
static RoqSession *const s = &session;
static uint32_t store[STORE], screen[PIXELS], blank[PIXELS];
static uint64_t seed, state, number;
static uint64_t asked[3], nothing, all, part, beyond;

/* ---- Random numbers ---- */

/* splitmix64, of Steele, Lea and Flood. */
static uint64_t random_bits(void) {
    uint64_t z = state += UINT64_C(0x9e3779b97f4a7c15);
    z = (z ^ (z >> 30)) * UINT64_C(0xbf58476d1ce4e5b9);
    z = (z ^ (z >> 27)) * UINT64_C(0x94d049bb133111eb);
    return z ^ (z >> 31);
}

static uint32_t below(uint32_t bound) { return (uint32_t)(((random_bits() >> 32) * bound) >> 32); }

static uint32_t colour(void) { return (uint32_t)random_bits() & 0x7fffffff; }

static RoqRect area(uint32_t width, uint32_t height) {
    RoqRect r;
    r.pos.x = below(width);
    r.pos.y = below(height);
    r.dims.w = below(24);
    r.dims.h = below(20);
    return r;
}

/* ---- What is written ---- */

/* The call that is meant, on a copy of the session. */
static uint32_t make_meant(uint32_t which) {
    RoqSession copy = session;
    for (size_t i = 0; i < PIXELS; i++)
        blank[i] = UNWRITTEN;
    if (which == ROQ_PORTION)
        return roq_portion(&copy, WIDTH, HEIGHT, store, STORE, blank, PIXELS);
    return roq_redraw(&copy, which == ROQ_REDRAW_FORCED, WIDTH, HEIGHT, store, STORE, blank, PIXELS);
}

static uint32_t least(uint32_t a, uint32_t b) { return a < b ? a : b; }

/* The smallest rectangle of the area's pixels that were written, (0,0,0,0) where none was. */
static RoqRect smallest(RoqRect a) {
    uint32_t left = WIDTH, top = HEIGHT, right = 0, bottom = 0;
    RoqRect none = {{0, 0}, {0, 0}};
    for (uint32_t y = a.pos.y; y < least(HEIGHT, a.pos.y + a.dims.h); y++)
        for (uint32_t x = a.pos.x; x < least(WIDTH, a.pos.x + a.dims.w); x++)
            if (blank[y * WIDTH + x] != UNWRITTEN) {
                left = least(left, x);
                top = least(top, y);
                right = x < right ? right : x + 1;
                bottom = y + 1;
            }
    if (right == 0)
        return none;
    return (RoqRect){{left, top}, {right - left, bottom - top}};
}

static bool same(RoqRect a, RoqRect b) {
    return a.pos.x == b.pos.x && a.pos.y == b.pos.y && a.dims.w == b.dims.w && a.dims.h == b.dims.h;
}

static void say(const char *name, RoqRect r) {
    printf("%s (%" PRIu32 ",%" PRIu32 ",%" PRIu32 ",%" PRIu32 ")", name, r.pos.x, r.pos.y, r.dims.w, r.dims.h);
}

static _Noreturn void differ(const char *what, uint32_t which, RoqRect area, RoqRect said, RoqRect due) {
    printf("session %" PRIu64 ", call %" PRIu32 ": %s: ", number, which, what);
    say("of", area);
    say(" it says", said);
    say(", written is", due);
    printf("\n");
    exit(1);
}

/* Asks of one area, which lies on the screen. The call was made on `blank`. */
static void compare(uint32_t which, RoqRect a) {
    RoqRect due = smallest(a);
    RoqSession before = session;
    RoqStale stale = roq_stale(s, which, a);
    if (stale.answer != 0 || stale.due != (due.dims.w > 0) || !same(stale.rect, due))
        differ("another rectangle", which, a, stale.rect, due);
    if (memcmp(&before, &session, sizeof session) != 0)
        differ("it changed the session", which, a, stale.rect, due);
    asked[which]++;
    nothing += !stale.due;
    all += stale.due && same(due, a);
    part += stale.due && !same(due, a);
}

/* An area that passes the screen: at least what is written on the screen is in the rectangle. */
static void compare_beyond(uint32_t which) {
    RoqRect wide = {{0, 0}, {32767, 32767}}, due = smallest(wide);
    RoqStale stale = roq_stale(s, which, wide);
    bool holds = due.dims.w == 0 || (stale.due && stale.rect.pos.x <= due.pos.x && stale.rect.pos.y <= due.pos.y &&
                                     due.pos.x + due.dims.w <= stale.rect.pos.x + stale.rect.dims.w &&
                                     due.pos.y + due.dims.h <= stale.rect.pos.y + stale.rect.dims.h);
    if (stale.answer != 0 || !holds)
        differ("something is left out", which, wide, stale.rect, due);
    beyond++;
}

/* Of the whole screen and of random areas, of each call that can be made. */
static void ask(void) {
    const RoqRect whole = {{0, 0}, {WIDTH, HEIGHT}};
    for (uint32_t which = ROQ_REDRAW; which <= ROQ_PORTION; which++) {
        uint32_t answer = make_meant(which);
        if (answer != roq_stale(s, which, whole).answer)
            differ("another answer", which, whole, whole, whole);
        if (answer != 0)
            continue;
        compare(which, whole);
        compare_beyond(which);
        for (int i = 0; i < AREAS; i++) {
            RoqRect a = area(WIDTH, HEIGHT);
            a.dims.w = least(a.dims.w, WIDTH - a.pos.x);
            a.dims.h = least(a.dims.h, HEIGHT - a.pos.y);
            compare(which, a);
        }
    }
}

/* ---- Random sessions ---- */

static void window(void) {
    uint32_t id = roq_create(s).id;
    RoqRect at = area(WIDTH, HEIGHT);
    roq_resize(s, id, at.dims.w, at.dims.h, store, STORE);
    roq_move(s, id, at.pos.x, at.pos.y);
    roq_show(s, id);
}

static void write_pixels(uint32_t id) {
    RoqRect in = area(20, 16);
    uint32_t data[30];
    for (size_t i = 0; i < 30; i++)
        data[i] = colour();
    if (below(3) == 0)
        roq_blit(s, id, in, 1 + below(30), data, below(31), store, STORE);
    else
        roq_fill(s, id, in, colour(), store, STORE);
    if (below(4) > 0)
        roq_mark(s, id);
}

/* Mostly what owes nothing, so that damage, marks and repairs are seen. */
static void change(void) {
    uint32_t id = below(16), x = below(WIDTH), y = below(HEIGHT);
    switch (below(40)) {
    case 0: window(); break;
    case 1: roq_hide(s, id); break;
    case 2: roq_show(s, id); break;
    case 3: roq_move(s, id, x, y); break;
    case 4: roq_resize(s, id, below(24), below(20), store, STORE); break;
    case 5: roq_set_layer(s, id, below(2)); break;
    case 6: roq_dim(s, below(2) == 0); break;
    case 7: roq_drop(s, id); break;
    case 8: case 9: case 10: case 11: roq_raise(s, id); break;
    case 12: case 13: case 14: case 15: case 16: roq_drag(s, id, x, y); break;
    case 17: case 18: roq_mark(s, id); break;
    default: write_pixels(id);
    }
}

static void draw(void) {
    ask();
    uint32_t kind = below(8);
    if (kind == 0)
        roq_begin(s, below(3) == 0);
    else if (roq_portion(s, WIDTH, HEIGHT, store, STORE, screen, PIXELS) == 20)
        roq_redraw(s, kind == 1, WIDTH, HEIGHT, store, STORE, screen, PIXELS);
}

static void random_session(void) {
    roq_start(s, C);
    for (size_t i = 0; i < STORE; i++)
        store[i] = colour();
    for (uint32_t windows = below(17); windows > 0; windows--)
        window();
    for (int step = 0; step < STEPS; step++) {
        change();
        if (below(3) == 0)
            draw();
    }
}

int main(int count, char **words) {
    if (count != 3)
        return 2;
    uint64_t sessions = strtoull(words[1], NULL, 10);
    state = seed = strtoull(words[2], NULL, 10);
    printf("seed %" PRIu64 "\n", seed);
    for (number = 1; number <= sessions; number++)
        random_session();
    printf("areas asked of a redraw: %" PRIu64 ", of a forced one: %" PRIu64 ", of a portion: %" PRIu64 "\n",
           asked[ROQ_REDRAW], asked[ROQ_REDRAW_FORCED], asked[ROQ_PORTION]);
    printf("nothing is stale: %" PRIu64 ", all of the area: %" PRIu64 ", a part of it: %" PRIu64 "\n", nothing, all, part);
    printf("areas that pass the screen: %" PRIu64 "\n", beyond);
    printf("%" PRIu64 " sessions, %" PRIu64 " areas compared, 0 differences\n", sessions, nothing + all + part);
    return 0;
}
