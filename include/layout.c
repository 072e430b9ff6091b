/* Whether the structs of roqshyn.h lie in memory as the library has them: sizes by the compiler, fields by calls that read and set
 * them, and the session by what lies around it. */
#include "roqshyn.h"

#include <stdio.h>
#include <string.h>

#define SIZE(type, bytes) _Static_assert(sizeof(type) == (bytes), #type)
SIZE(RoqPos, 8);
SIZE(RoqDims, 8);
SIZE(RoqRect, 16);
SIZE(RoqEvent, 20);
SIZE(RoqSession, 5784);
SIZE(RoqCreated, 8);
SIZE(RoqPopped, 24);
SIZE(RoqRouted, 16);
SIZE(RoqAltered, 16);
SIZE(RoqStale, 24);
SIZE(RoqListing, 16);
SIZE(RoqShare, 12);
SIZE(RoqLook, 32);
SIZE(RoqDisplay, 24);
SIZE(RoqPlaced, 20);
SIZE(RoqWindow, 44);
SIZE(RoqState, 28);
SIZE(RoqTested, 8);
SIZE(RoqIntersection, 24);
SIZE(RoqUnited, 20);
SIZE(RoqPieces, 72);
SIZE(RoqNotIntersect, 80);
SIZE(RoqPart, 24);
SIZE(RoqSecond, 24);

static int failed = 0;

#define EXPECT(what)                                                 \
    do {                                                             \
        if (!(what)) {                                               \
            printf("%s:%d: not so: %s\n", __FILE__, __LINE__, #what); \
            failed = 1;                                              \
        }                                                            \
    } while (0)

enum { C = 40000, LAST = 15 };
static uint32_t store[16 * C];
static uint32_t screen[64];

/* The session, between words that no call may touch. */
#define GUARD UINT64_C(0x5a5aa5a5c3c33c3c)
static struct {
    uint64_t before;
    RoqSession session;
    uint64_t after;
} kept = {GUARD, {{0}}, GUARD};
static RoqSession *const s = &kept.session;

static bool is_rect(RoqRect r, uint32_t x, uint32_t y, uint32_t w, uint32_t h) {
    return r.pos.x == x && r.pos.y == y && r.dims.w == w && r.dims.h == h;
}

static RoqRect rect(uint32_t x, uint32_t y, uint32_t w, uint32_t h) {
    RoqRect r = {{x, y}, {w, h}};
    return r;
}

/* A walk over the two windows that are shown, in the session's last words. */
static void walk(void) {
    EXPECT(roq_portion(s, 8, 8, store, 16 * C, screen, 64) == 20);
    EXPECT(roq_begin(s, true) == 0 && s->words[707] == 0 && (s->words[708] & 0xffff) == 0x0101);
    EXPECT(roq_portion(s, 8, 8, store, 16 * C, screen, 63) == 8 && s->words[707] == 0);
    EXPECT(roq_portion(s, 8, 8, store, 16 * C, screen, 64) == 0 && s->words[707] == 1);
    EXPECT(roq_portion(s, 8, 8, store, 16 * C, screen, 64) == 0 && (s->words[708] & 0xff) == 0);
    EXPECT(roq_portion(s, 8, 8, store, 16 * C, screen, 64) == 20);
}

/* Dimming, a byte in the word behind the focus; each switch owes a full redraw; a pixel that a redraw writes, and the
 * store's, which stays. */
static void dims(void) {
    EXPECT(roq_resize(s, 7, 1, 1, store, 16 * C) == 0 && roq_fill(s, 7, rect(0, 0, 1, 1), 0x80ff8001, store, 16 * C).answer == 0);
    EXPECT(roq_redraw(s, false, 8, 8, store, 16 * C, screen, 64) == 0 && screen[0] == 0x80ff8001);
    EXPECT(roq_dim(s, false) == 0 && (s->words[706] & 0xff) == 0 && (s->words[709] & 0xff) == 0);
    EXPECT(roq_dim(s, true) == 0 && (s->words[706] & 0xff) == 1 && (s->words[709] & 0xff) == 1);
    EXPECT(roq_redraw(s, false, 8, 8, store, 16 * C, screen, 64) == 0 && screen[0] == 0x80ff4000 && store[7 * C] == 0x80ff8001);
    EXPECT(roq_dim(s, false) == 0 && (s->words[706] & 0xff) == 0 && roq_redraw(s, false, 8, 8, store, 16 * C, screen, 64) == 0);
    EXPECT(screen[0] == 0x80ff8001 && roq_resize(s, 7, 0, 0, store, 16 * C) == 0);
}

/* The layers, a byte for each id in two words; a change owes a full redraw, the focus stays, and what is set stays
 * set. A raise gives the focus, and owes no full redraw. */
static void layers(void) {
    EXPECT(roq_redraw(s, false, 8, 8, store, 16 * C, screen, 64) == 0 && roq_set_layer(s, 7, 0) == 0);
    EXPECT((s->words[709] & 0xff) == 0 && s->words[710] == 0 && s->words[711] == 0);
    EXPECT(roq_set_layer(s, 7, 1) == 0 && (s->words[709] & 0xff) == 1 && s->words[710] >> 56 == 1 && roq_focus(s) == LAST);
    EXPECT(roq_set_layer(s, 7, 2) == 17 && roq_set_layer(s, 16, 2) == 3 && s->words[710] >> 56 == 1 && s->words[711] == 0);
    EXPECT(roq_hide(s, 7) == 0 && roq_set_layer(s, 7, 0) == 0 && roq_show(s, 7) == 0 && roq_set_layer(s, LAST, 1) == 0);
    EXPECT(s->words[710] == 0 && s->words[711] >> 56 == 1 && roq_focus(s) == 7 && roq_drop(s, LAST) == 0);
    EXPECT(roq_create(s).id == LAST && s->words[711] == 0);
    EXPECT(roq_resize(s, LAST, 200, 150, store, 16 * C) == 0 && roq_move(s, LAST, 3000, 4000) == 0 && roq_show(s, LAST) == 0);
    EXPECT(roq_redraw(s, false, 8, 8, store, 16 * C, screen, 64) == 0);
    EXPECT(roq_raise(s, 7) == 0 && roq_focus(s) == 7 && roq_raise(s, 16) == 3 && roq_raise(s, LAST) == 0 && roq_focus(s) == LAST);
    EXPECT((s->words[709] & 0xff) == 0 && roq_redraw(s, false, 8, 8, store, 16 * C, screen, 64) == 0);
}

/* A display in the word of its number, and their count in the last; the flags, a byte for each id in two words before them. A maximised window
 * takes the display that it is on, a refused update_dims changes nothing, and a move clears the flag. */
static void displays(void) {
    RoqDisplay none = roq_display_at(s, 5, 6);
    EXPECT(none.answer == 0 && !none.on && is_rect(none.rect, 0, 0, 0, 0) && (s->words[722] & 0xff) == 0 && s->words[712] == 0 && s->words[713] == 0);
    EXPECT(roq_add_display(s, rect(1, 2, 3, 32768)) == 5 && roq_add_display(s, rect(1, 2, 0, 4)) == 15 && (s->words[722] & 0xff) == 0);
    EXPECT(roq_add_display(s, rect(100, 200, 30, 40)) == 0 && s->words[714] == (UINT64_C(40) << 48 | UINT64_C(30) << 32 | 200 << 16 | 100));
    for (uint32_t i = 1; i < 8; i++)
        EXPECT(roq_add_display(s, rect(1000 * i, 1, 8, 1)) == 0 && (s->words[722] & 0xff) == i + 1);
    EXPECT(roq_add_display(s, rect(0, 0, 1, 1)) == 16 && s->words[721] == (UINT64_C(1) << 48 | UINT64_C(8) << 32 | 1 << 16 | 7000));
    RoqDisplay on = roq_display_at(s, 129, 239), near = roq_display_at(s, 130, 239);
    EXPECT(on.answer == 0 && on.on && is_rect(on.rect, 100, 200, 30, 40) && roq_display_at(s, 32768, 0).answer == 5);
    EXPECT(near.answer == 0 && !near.on && is_rect(near.rect, 100, 200, 30, 40));
    EXPECT(roq_move(s, 7, 110, 210) == 0 && roq_maximise(s, 7, store, 16 * C - 1) == 1 && roq_maximise(s, 16, store, 16 * C) == 3);
    EXPECT(roq_maximise(s, 7, store, 16 * C) == 0 && is_rect(roq_rect_of(s, 7).rect, 100, 200, 30, 40) && s->words[712] >> 56 == 1);
    EXPECT(roq_pop(s, 7).event.kind == ROQ_RESIZE && roq_update_dims(s, store, 16 * C - 1) == 1 && roq_update_dims(s, store, 16 * C) == 0);
    EXPECT(is_rect(roq_rect_of(s, LAST).rect, 3000, 1, 200, 150) && s->words[712] >> 56 == 1 && s->words[713] == 0);
    EXPECT(roq_resize(s, 7, 0, 0, store, 16 * C) == 0 && s->words[712] == 0 && roq_move(s, 7, 0, 0) == 0);
    EXPECT(roq_move(s, LAST, 3000, 4000) == 0 && roq_redraw(s, false, 8, 8, store, 16 * C, screen, 64) == 0);
}

/* A drag clears the flag and owes no full redraw: what the window uncovers is drawn, and the rest of the screen stays.
 * It owes one where a walk is on, which goes back to the lowest window. */
static void drags(void) {
    EXPECT(roq_drag(s, 16, 0, 32768) == 3 && roq_drag(s, LAST, 32768, 0) == 5 && roq_drag(s, LAST, 0, 32768) == 5);
    EXPECT(roq_drag(s, LAST, 0, 0) == 0 && roq_move(s, 7, 110, 210) == 0 && roq_maximise(s, 7, store, 16 * C) == 0 && s->words[712] >> 56 == 1);
    EXPECT(roq_drag(s, 7, 1, 0) == 0 && s->words[712] == 0 && roq_resize(s, 7, 2, 1, store, 16 * C) == 0);
    EXPECT(roq_fill(s, 7, rect(0, 0, 2, 1), 5, store, 16 * C).answer == 0 && roq_redraw(s, false, 8, 8, store, 16 * C, screen, 64) == 0);
    EXPECT(screen[1] == 0 && roq_drag(s, LAST, 2, 0) == 0 && (s->words[709] & 0xff) == 0 && is_rect(roq_rect_of(s, LAST).rect, 2, 0, 200, 150));
    EXPECT(roq_redraw(s, false, 8, 8, store, 16 * C, screen, 64) == 0 && screen[1] == 5 && screen[2] == 0);
    EXPECT(roq_begin(s, false) == 0 && roq_portion(s, 8, 8, store, 16 * C, screen, 64) == 0 && s->words[707] == 1);
    EXPECT(roq_drag(s, LAST, 3000, 4000) == 0 && s->words[707] == 0 && (s->words[708] & 0xffff) == 0x0101 && (s->words[709] & 0xff) == 1);
    EXPECT(roq_redraw(s, false, 8, 8, store, 16 * C, screen, 64) == 0 && screen[2] == 5 && roq_resize(s, 7, 0, 0, store, 16 * C) == 0);
    EXPECT(roq_move(s, 7, 0, 0) == 0 && roq_redraw(s, false, 8, 8, store, 16 * C, screen, 64) == 0);
}

static RoqEvent mouse(uint8_t kind, uint32_t x, uint32_t y, uint8_t button, uint8_t count) {
    RoqEvent e = {x, y, 0, 0, 0, kind, button, count};
    return e;
}

/* The window that took the last MouseDown, in the upper half of that word, or 16, also after a raise; a release off it,
 * at its last pixel, and one that it refuses. */
static void releases(void) {
    EXPECT(s->words[706] >> 32 == 16 && roq_route(s, mouse(ROQ_MOUSE_DOWN, 3001, 4002, 1, 0)) == 0 && s->words[706] >> 32 == LAST);
    EXPECT(roq_pop(s, LAST).event.kind == ROQ_RESIZE && roq_pop(s, LAST).event.kind == ROQ_MOUSE_DOWN);
    EXPECT(roq_raise(s, 7) == 0 && s->words[706] >> 32 == LAST && roq_raise(s, LAST) == 0 && s->words[706] >> 32 == LAST);
    EXPECT(roq_route(s, mouse(ROQ_MOUSE_UP, 3001, 40000, 1, 0)) == 5 && s->words[706] >> 32 == LAST);
    EXPECT(roq_route(s, mouse(ROQ_MOUSE_UP, 9, 9000, 1, 0)) == 0 && s->words[706] >> 32 == 16);
    RoqEvent up = roq_pop(s, LAST).event;
    EXPECT(up.kind == ROQ_MOUSE_UP && up.x == 0 && up.y == 149 && up.button == 1);
    EXPECT(roq_route(s, mouse(ROQ_MOUSE_UP, 9, 9000, 1, 0)) == 11);
}

/* The share of the window below, of which the other one covers two pixels of three; of the other one; and both refusals. */
static void shares(void) {
    EXPECT(roq_share(s, 7).answer == 24);
    EXPECT(roq_resize(s, 7, 3, 1, store, 16 * C) == 0 && roq_move(s, 7, 2999, 4000) == 0);
    RoqShare third = roq_share(s, 7), whole = roq_share(s, LAST);
    EXPECT(third.answer == 0 && third.percent == 33 && third.remainder == 1);
    EXPECT(whole.answer == 0 && whole.percent == 100 && whole.remainder == 0);
    EXPECT(roq_share(s, 8).answer == 24 && roq_share(s, 16).answer == 3);
}

/* What is stale: each field, of a redraw that is owed, of one that is not, of a forced one, of a portion; and the
 * refusals, which give no rectangle. */
static void stale(void) {
    EXPECT(roq_move(s, LAST, 4, 3) == 0);
    RoqStale all = roq_stale(s, ROQ_REDRAW, rect(0, 0, 100, 50));
    EXPECT(all.answer == 0 && all.due && is_rect(all.rect, 4, 3, 96, 47));
    EXPECT(roq_redraw(s, false, 8, 8, store, 16 * C, screen, 64) == 0);
    RoqStale none = roq_stale(s, ROQ_REDRAW, rect(0, 0, 100, 50)), forced = roq_stale(s, ROQ_REDRAW_FORCED, rect(0, 0, 9, 9));
    EXPECT(none.answer == 0 && !none.due && is_rect(none.rect, 0, 0, 0, 0) && forced.answer == 0 && is_rect(forced.rect, 4, 3, 5, 6));
    EXPECT(roq_fill(s, LAST, rect(9, 5, 7, 3), 6, store, 16 * C).answer == 0 && roq_mark(s, LAST) == 0);
    EXPECT(is_rect(roq_stale(s, ROQ_REDRAW, rect(0, 0, 100, 50)).rect, 13, 8, 7, 3));
    RoqStale no_walk = roq_stale(s, ROQ_PORTION, rect(0, 0, 100, 50)), no_call = roq_stale(s, 3, rect(0, 0, 100, 50));
    EXPECT(no_walk.answer == 20 && !no_walk.due && is_rect(no_walk.rect, 0, 0, 0, 0) && no_call.answer == 28 && !no_call.due);
    EXPECT(roq_stale(s, 3, rect(0, 32768, 1, 1)).answer == 5 && roq_begin(s, true) == 0);
    EXPECT(!roq_stale(s, ROQ_PORTION, rect(0, 0, 9, 9)).due && roq_portion(s, 8, 8, store, 16 * C, screen, 64) == 0);
    EXPECT(is_rect(roq_stale(s, ROQ_PORTION, rect(0, 0, 9, 9)).rect, 4, 3, 5, 6));
    EXPECT(roq_redraw(s, false, 8, 8, store, 16 * C, screen, 64) == 0 && roq_move(s, LAST, 3000, 4000) == 0);
}

/* Each field of a window and of the session, in another state than 0; and the refusal, which is all 0. The session is
 * put back. */
static void standing(void) {
    RoqSession before = *s;
    RoqWindow below = roq_window(s, 7), above = roq_window(s, LAST), none = roq_window(s, 16);
    EXPECT(below.answer == 0 && is_rect(below.rect, 2999, 4000, 3, 1) && below.shown && below.place == 0 && below.layer == 0);
    EXPECT(above.answer == 0 && is_rect(above.rect, 3000, 4000, 200, 150) && above.shown && above.place == 1 && !above.marked);
    EXPECT(none.answer == 3 && is_rect(none.rect, 0, 0, 0, 0) && !none.shown && none.place == 0 && none.layer == 0 && !none.maximised);
    EXPECT(!none.marked && none.queued == 0 && !none.moved && !roq_window(s, 8).shown);
    uint32_t queued = above.queued;
    EXPECT(roq_route(s, mouse(ROQ_MOUSE_DOWN, 3001, 4002, 1, 0)) == 0 && roq_route(s, mouse(ROQ_MOUSE_MOVE, 3001, 4002, 0, 0)) == 0);
    EXPECT(roq_mark(s, LAST) == 0 && roq_set_layer(s, LAST, 1) == 0 && roq_maximise(s, 8, store, 16 * C) == 0);
    above = roq_window(s, LAST);
    EXPECT(above.layer == 1 && above.marked && above.queued == queued + 1 && above.moved && !above.maximised);
    EXPECT(roq_window(s, 8).maximised && roq_dim(s, true) == 0 && roq_begin(s, false) == 0);
    EXPECT(roq_portion(s, 8, 8, store, 16 * C, screen, 64) == 0);
    RoqState now = roq_state(s);
    EXPECT(now.c == C && now.shown == 2 && now.focus == LAST && now.grab == LAST && now.displays == 8);
    EXPECT(now.dimmed && now.owed && now.walk && now.full && now.left == 1);
    EXPECT(roq_dim(s, false) == 0 && roq_redraw(s, false, 8, 8, store, 16 * C, screen, 64) == 0 && roq_hide(s, LAST) == 0 && roq_hide(s, 7) == 0);
    EXPECT(roq_redraw(s, false, 8, 8, store, 16 * C, screen, 64) == 0);
    now = roq_state(s);
    EXPECT(now.shown == 0 && now.focus == ROQ_NOBODY && now.grab == ROQ_NOBODY && !now.dimmed && !now.owed && !now.walk && !now.full && now.left == 0);
    *s = before;
}

/* Three points: of the window above, of the one below, of none; the rest of the list; and both refusals, which write nothing. */
static void fingers(void) {
    uint32_t points[6] = {3000, 4000, 2999, 4000, 2998, 4000}, answers[10] = {9, 9, 9, 9, 9, 9, 9, 9, 9, 9};
    EXPECT(roq_hits(s, points, 5, answers, 10) == 25 && roq_hits(s, points, 6, answers, 8) == 25 && answers[0] == 9);
    EXPECT(roq_hits(s, points, 6, answers, 10) == 0 && roq_hits(s, points, 0, answers, 0) == 0);
    EXPECT(answers[0] == LAST && answers[1] == 0 && answers[2] == 0 && answers[3] == 7 && answers[4] == 0 && answers[5] == 0);
    EXPECT(answers[6] == 16 && answers[7] == 0 && answers[8] == 0 && answers[9] == 9);
    points[5] = 32768;
    EXPECT(roq_hits(s, points, 6, answers, 8) == 5 && answers[0] == LAST);
}

/* The sheet of the window below, of which one pixel is seen, and its rectangle; what lies behind both; a hidden window; and the refusals, which write
 * nothing. */
static void sheets(void) {
    static const uint8_t one[9] = {4, 0, 0, 0, 16, 128, 0, 0, 2};
    uint8_t bytes[11] = {9, 9, 9, 9, 9, 9, 9, 9, 9, 9, 9};
    uint32_t list[5] = {9, 9, 9, 9, 9};
    EXPECT(roq_sheet(s, 16, bytes, 8).answer == 3 && roq_sheet(s, 7, bytes, 8).answer == 19 && roq_sheet(s, 7, bytes, 8).count == 0 && bytes[0] == 9);
    RoqListing sheet = roq_sheet(s, 7, bytes, 11), hidden = roq_sheet(s, 8, bytes + 10, 1);
    EXPECT(sheet.answer == 0 && sheet.count == 9 && memcmp(bytes, one, 9) == 0 && bytes[9] == 9);
    EXPECT(hidden.answer == 0 && hidden.count == 1 && bytes[10] == 0);
    EXPECT(roq_read_sheet(bytes, 10, list, 3).answer == 18 && roq_read_sheet(bytes, 0, list, 5).answer == 18);
    EXPECT(roq_read_sheet(bytes, 9, list, 3).answer == 19 && roq_read_sheet(bytes, 9, list, 3).count == 0 && list[0] == 9);
    RoqListing read = roq_read_sheet(bytes, 9, list, 5), nothing = roq_read_sheet(bytes + 10, 1, list, 0);
    EXPECT(read.answer == 0 && read.count == 1 && list[0] == 0 && list[1] == 0 && list[2] == 1 && list[3] == 1 && list[4] == 9);
    EXPECT(nothing.answer == 0 && nothing.count == 0);
}

/* A look at the pixels that the fill and the blit wrote: the fields of the struct, what lies around the target, fit, which reads no other
 * field, and the refusals, which write nothing. */
static void looks(void) {
    uint32_t kept_pixels[18] = {9, 9, 9, 9, 9, 9, 9, 9, 9, 9, 9, 9, 9, 9, 9, 9, 9, 9}, *target = kept_pixels + 1;
    RoqLook twice = {19.5, 30.25, 2, false}, threefold = {19.5, 30.25, 3, false}, between = {0.1, 0, 1, false}, fit = {0.1, -1.0 / 0.0, 3, true};
    EXPECT(roq_look(s, LAST, twice, 4, 4, store, 16 * C - 1, target, 16) == 1 && roq_look(s, 16, twice, 4, 4, store, 16 * C, target, 16) == 3);
    EXPECT(roq_look(s, LAST, threefold, 4, 4, store, 16 * C, target, 15) == 22 && roq_look(s, LAST, between, 4, 4, store, 16 * C, target, 16) == 22);
    EXPECT(roq_look(s, LAST, twice, 4, 4, store, 16 * C, target, 15) == 23 && roq_look(s, LAST, twice, 0, 4, store, 16 * C, target, 0) == 23);
    EXPECT(target[0] == 9 && roq_look(s, LAST, twice, 4, 4, store, 16 * C, target, 16) == 0);
    EXPECT(target[0] == 0 && target[1] == 11 && target[2] == 11 && target[3] == 12 && target[4] == 0 && target[5] == 11);
    EXPECT(target[8] == 0 && target[9] == 21 && target[11] == 22 && target[15] == 22 && kept_pixels[0] == 9 && kept_pixels[17] == 9);
    EXPECT(roq_look(s, LAST, fit, 4, 4, store, 16 * C, target, 16) == 0 && target[0] == 0 && target[6] == 0);
    EXPECT(roq_fill(s, LAST, rect(8, 4, 1, 1), 8, store, 16 * C).answer == 0 && roq_look(s, LAST, fit, 4, 4, store, 16 * C, target, 16) == 0);
    EXPECT(target[5] == 0 && target[6] == 8);
}

/* A session as large as the library's: its last words hold C, the focus, dimming and the window of the last MouseDown, the walk's next place,
 * whether it is on and full, the debt, the layers, the flags and the displays; nothing is written beyond. */
static void session(void) {
    EXPECT(roq_start(s, C) == 0 && (uint32_t)s->words[705] == C);
    for (uint32_t id = 0; id < 16; id++) {
        RoqCreated made = roq_create(s);
        EXPECT(made.answer == 0 && made.id == id);
    }
    RoqCreated none = roq_create(s);
    EXPECT(none.answer == 4 && none.id == ROQ_NO_ID);
    EXPECT(roq_resize(s, LAST, 200, 150, store, 16 * C) == 0 && roq_move(s, LAST, 3000, 4000) == 0);
    EXPECT(roq_show(s, 7) == 0 && roq_show(s, LAST) == 0 && roq_focus(s) == LAST);
    EXPECT(s->words[705] >> 32 == LAST && (s->words[709] & 0xff) == 1);
    EXPECT(roq_mark(s, LAST) == 0 && roq_redraw(s, false, 8, 8, store, 16 * C, screen, 64) == 0);
    EXPECT((s->words[709] & 0xff) == 0);
    walk();
    dims();
    layers();
    displays();
    drags();
    RoqAltered filled = roq_fill(s, LAST, rect(9, 5, 7, 3), 6, store, 16 * C);
    EXPECT(filled.answer == 0 && filled.altered == 21);
    filled = roq_fill(s, LAST, rect(9, 5, 7, 3), 6, store, 16 * C - 1);
    EXPECT(filled.answer == 1 && filled.altered == 0);
    EXPECT(store[LAST * C + 5 * 200 + 9] == 6 && store[LAST * C + 7 * 200 + 15] == 6 && store[LAST * C + 7 * 200 + 16] == 0);
    uint32_t data[6] = {11, 12, 13, 21, 22, 23};
    EXPECT(roq_blit(s, LAST, rect(20, 30, 2, 2), 3, data, 6, store, 16 * C).answer == 0);
    EXPECT(store[LAST * C + 31 * 200 + 21] == 22 && store[LAST * C + 31 * 200 + 22] == 0);
    looks();
    shares();
    fingers();
    sheets();
    stale();
    standing();
    RoqPlaced at = roq_rect_of(s, LAST);
    EXPECT(at.answer == 0 && is_rect(at.rect, 3000, 4000, 200, 150));
}

/* A bit for each window that has an event or a move, the lowest and the highest too. */
static void waiting(void) {
    for (uint32_t id = 0; id < 16; id++)
        while (roq_pop(s, id).answer == 0)
            continue;
    EXPECT(roq_waiting(s) == 0 && roq_route(s, mouse(ROQ_MOUSE_MOVE, 2999, 4000, 0, 0)) == 0 && roq_waiting(s) == 1u << 7);
    EXPECT(roq_route(s, mouse(ROQ_MOUSE_CLICK, 3000, 4000, 1, 1)) == 0 && roq_waiting(s) == (1u << LAST | 1u << 7));
    EXPECT(roq_resize(s, 0, 1, 1, store, 16 * C) == 0 && roq_waiting(s) == (1u << LAST | 1u << 7 | 1u) && roq_pop(s, 7).answer == 0);
    EXPECT(roq_waiting(s) == (1u << LAST | 1u) && roq_pop(s, LAST).answer == 0 && roq_pop(s, 0).answer == 0 && roq_waiting(s) == 0);
}

static bool is_routed(RoqRouted r, uint32_t answer, uint32_t id, uint32_t x, uint32_t y) {
    return r.answer == answer && r.id == id && r.x == x && r.y == y;
}

/* Who took an event: a click, a move, a key; nobody took a Resize, a kind that is none, and a point too far. */
static void takers(void) {
    const RoqEvent key = {0, 0, 65, 0, 0, ROQ_KEY_DOWN, 0, 0}, resize = {3011, 4022, 0, 0, 0, ROQ_RESIZE, 0, 0};
    EXPECT(is_routed(roq_route_to(s, mouse(ROQ_MOUSE_CLICK, 3011, 4022, 33, 44)), 0, LAST, 11, 22) && roq_pop(s, LAST).answer == 0);
    EXPECT(is_routed(roq_route_to(s, mouse(ROQ_MOUSE_MOVE, 3055, 4066, 0, 0)), 0, LAST, 55, 66) && roq_pop(s, LAST).answer == 0);
    EXPECT(is_routed(roq_route_to(s, key), 0, roq_focus(s), 0, 0) && roq_pop(s, roq_focus(s)).answer == 0);
    EXPECT(is_routed(roq_route_to(s, resize), 0, ROQ_NO_ID, 0, 0));
    EXPECT(is_routed(roq_route_to(s, mouse(200, 3011, 4022, 0, 0)), 11, ROQ_NO_ID, 0, 0));
    EXPECT(is_routed(roq_route_to(s, mouse(ROQ_MOUSE_DOWN, 32768, 4022, 1, 0)), 5, ROQ_NO_ID, 0, 0));
}

/* The fields of an event, there and back. */
static void events(void) {
    releases();
    RoqEvent key = {0, 0, 0x12345678, 0, 0, ROQ_TEXT, 0, 0};
    EXPECT(roq_route(s, key) == 0);
    EXPECT(roq_route(s, mouse(ROQ_MOUSE_CLICK, 3011, 4022, 33, 44)) == 0);
    EXPECT(roq_route(s, mouse(ROQ_MOUSE_MOVE, 3055, 4066, 0, 0)) == 0);
    RoqPopped text = roq_pop(s, LAST);
    EXPECT(text.answer == 0 && text.event.kind == ROQ_TEXT && text.event.value == 0x12345678);
    RoqEvent click = roq_pop(s, LAST).event;
    EXPECT(click.kind == ROQ_MOUSE_CLICK && click.x == 11 && click.y == 22 && click.button == 33 && click.count == 44);
    EXPECT(roq_pop(s, LAST).event.dx == 55);
    EXPECT(roq_route(s, mouse(ROQ_MOUSE_MOVE, 3052, 4070, 0, 0)) == 0);
    RoqEvent moved = roq_pop(s, LAST).event;
    EXPECT(moved.kind == ROQ_MOUSE_MOVE && moved.x == 52 && moved.y == 70 && moved.dx == -3 && moved.dy == 4);
    RoqPopped none = roq_pop(s, LAST);
    EXPECT(none.answer == 10 && none.event.kind == ROQ_NO_EVENT);
    EXPECT(roq_route(s, mouse(200, 3052, 4070, 0, 0)) == 11);
    takers();
    waiting();
}

/* What the other calls hand back. */
static void values(void) {
    uint32_t list[8] = {9, 9, 9, 9, 9, 9, 9, 9};
    RoqListing seen = roq_visible(s, LAST, list, 8);
    EXPECT(seen.answer == 0 && seen.count == 1 && list[2] == 200 && list[3] == 150 && list[4] == 9);
    RoqPos corner = {3, 2};
    EXPECT(roq_contains(rect(1, 2, 3, 4), corner).yes && roq_within(rect(1, 2, 3, 4), 4, 6).yes);
    EXPECT(roq_contains_rect(rect(1, 2, 3, 4), rect(2, 3, 1, 1)).yes);
    EXPECT(roq_contains(rect(UINT32_MAX, 0, 1, 1), corner).answer == 14);
    RoqIntersection common = roq_intersect(rect(0, 0, 10, 10), rect(4, 3, 9, 2));
    EXPECT(common.answer == 0 && common.meets && is_rect(common.rect, 4, 3, 6, 2));
    EXPECT(is_rect(roq_union(rect(1, 2, 3, 4), rect(5, 6, 7, 8)).rect, 1, 2, 11, 12));
    RoqNotIntersect outside = roq_not_intersect(rect(0, 0, 10, 10), rect(4, 3, 4, 2));
    EXPECT(outside.answer == 0 && outside.pieces.count == 4 && is_rect(outside.pieces.rects[3], 0, 5, 10, 5));
    RoqPart line = roq_scanline(screen, 64, 8, 8, 3, 2, 100);
    EXPECT(line.answer == 0 && line.start == 26 && line.count == 6);
    RoqPart region = roq_region(screen, 64, 8, 1, 2, 3, 4);
    EXPECT(region.answer == 0 && region.start == 17 && region.count == 27);
    EXPECT(roq_fill_scanline(screen, 64, 8, 8, 1, 6, 9, 77).altered == 2 && screen[13] == 0 && screen[14] == 77 && screen[15] == 77);
    EXPECT(roq_set_scanline(screen, 64, 8, 8, 2, 0, 8, list, 4).answer == 0 && screen[18] == 200 && screen[16] == 0);
}

/* What the header says of a session that nobody started. */
static void unstarted(void) {
    RoqSession zeros = {{0}};
    RoqCreated made = roq_create(&zeros);
    EXPECT(made.answer == 0 && made.id == 0 && roq_show(&zeros, 0) == 0);
    EXPECT(roq_resize(&zeros, 0, 1, 1, store, 16) == 1 && roq_fill(&zeros, 0, rect(0, 0, 1, 1), 6, store, 16).answer == 1);
    EXPECT(roq_redraw(&zeros, true, 8, 8, store, 16, screen, 64) == 1 && roq_resize(&zeros, 0, 1, 1, store, 0) == 6);
}

/* The busiest second, the longest run, and both refusals. */
static void seconds(void) {
    uint32_t times[5] = {7, 1007, 2006, 2006, 2007};
    RoqSecond busiest = roq_busiest(times, 5);
    EXPECT(busiest.answer == 0 && busiest.count == 3 && busiest.place == 1);
    times[4] = 2005;
    RoqSecond refused = roq_busiest(times, 5);
    EXPECT(refused.answer == 27 && refused.count == 0 && refused.place == 0);
    static const uint32_t together[4097];
    EXPECT(roq_busiest(together, 4096).count == 4096 && roq_busiest(together, 4097).answer == 26);
}

/* The archive that is linked is the one that the header belongs to. Its session ends with RoqSession: the count of
 * displays lies in the last word, and no call touches the word behind it. */
static void version(void) {
    EXPECT(roq_version() == ROQ_VERSION);
    EXPECT(roq_session_size() == sizeof(RoqSession));
}

int main(void) {
    version();
    session();
    events();
    values();
    seconds();
    unstarted();
    EXPECT(kept.before == GUARD && kept.after == GUARD);
    if (!failed)
        printf("roqshyn.h agrees with the library\n");
    return failed;
}
