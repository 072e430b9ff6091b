/* What is stale: beside the pixels that the call then writes. It is made on a copy of the session, on two screens that
 * differ in every pixel: what it writes is the same on both. */
#include "hostile_calls.h"

#include <string.h>

/* 1 where the calls are recorded: what was recorded cannot be played where the program itself writes sessions and
 * screens, as it does below. */
#ifndef RECORDED
#define RECORDED 0
#endif

enum { SIDE = 64, PIXELS = SIDE * SIDE };
static uint32_t zeros[PIXELS], ones[PIXELS];

static uint32_t make_meant(uint32_t which, const uint32_t *store, size_t len, uint32_t *screen) {
    RoqSession copy = *session_to_read();
    if (which == ROQ_PORTION)
        return roq_portion(&copy, SIDE, SIDE, store, len, screen, PIXELS);
    return roq_redraw(&copy, which == ROQ_REDRAW_FORCED, SIDE, SIDE, store, len, screen, PIXELS);
}

/* Whether the rectangle is the smallest one of the area's pixels that are the same on both screens. */
static bool is_smallest(RoqStale stale, RoqRect area) {
    uint32_t left = SIDE, top = SIDE, right = 0, bottom = 0;
    for (uint32_t y = area.pos.y; y < area.pos.y + area.dims.h; y++)
        for (uint32_t x = area.pos.x; x < area.pos.x + area.dims.w; x++)
            if (zeros[y * SIDE + x] == ones[y * SIDE + x]) {
                left = least(left, x);
                top = least(top, y);
                right = x + 1 > right ? x + 1 : right;
                bottom = y + 1 > bottom ? y + 1 : bottom;
            }
    if (right == 0)
        return !stale.due;
    RoqRect due = {{left, top}, {right - left, bottom - top}};
    return stale.due && same_rect(stale.rect, due);
}

static bool is_on_screen(RoqRect r) { return r.pos.x + r.dims.w <= SIDE && r.pos.y + r.dims.h <= SIDE; }

/* A rectangle that is due has pixels and lies in the area; else it is (0,0,0,0). */
static bool is_in(RoqStale stale, RoqRect area) {
    static const RoqRect none = {{0, 0}, {0, 0}};
    RoqRect r = stale.rect;
    if (!stale.due)
        return same_rect(r, none);
    return r.dims.w > 0 && r.dims.h > 0 && r.pos.x >= area.pos.x && r.pos.y >= area.pos.y &&
           r.pos.x + r.dims.w <= area.pos.x + area.dims.w && r.pos.y + r.dims.h <= area.pos.y + area.dims.h;
}

static uint32_t due_stale(uint32_t which, RoqRect area) {
    ASK(is_small(area), 5);
    ASK(which <= ROQ_PORTION, 28);
    ASK(which != ROQ_PORTION || model.walking, 20);
    return 0;
}

void call_stale(void) {
    static const RoqRect whole = {{0, 0}, {SIDE, SIDE}};
    uint32_t which = odd_one_in(12) ? wild() : below(3);
    RoqRect r = one_in(3) ? whole : area();
    GIVEN(which, r.pos.x, r.pos.y, r.dims.w, r.dims.h);
    RoqStale stale = roq_stale(session_to_read(), which, r);
    bool is = accepted(stale.answer, due_stale(which, r));
    expect(is_in(stale, r) && (is || !stale.due), "what is stale is no part of the area");
    size_t len = 16 * (size_t)model.c;
    if (!is || !is_on_screen(r) || len > room_of(STORE) || RECORDED)
        return;
    const uint32_t *store = lend_to_read(STORE, len, NULL);
    memset(zeros, 0, sizeof zeros);
    memset(ones, 0xff, sizeof ones);
    expect(make_meant(which, store, len, zeros) == 0 && make_meant(which, store, len, ones) == 0, "it cannot be drawn");
    expect(is_smallest(stale, r), "the call writes elsewhere, or the rectangle is not the smallest");
}
