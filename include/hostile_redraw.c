/* Redraws and walks, which read a store and write a screen. */
#include "hostile_calls.h"

bool screen_fits(RoqDims dims, size_t len) {
    return dims.w >= 1 && dims.h >= 1 && dims.w <= LIMIT && dims.h <= LIMIT && len == pixels_of(dims);
}

/* The size of a screen or target: mostly small, sometimes as wide or as high as can be. */
RoqDims screen_dims(void) {
    RoqDims dims;
    dims.w = odd_one_in(80) ? wild() : 1 + below(28);
    dims.h = odd_one_in(80) ? wild() : 1 + below(28);
    if (one_in(200))
        dims.w = LIMIT;
    return dims;
}

static uint32_t due_redraw(RoqDims dims, size_t store_len, size_t screen_len) {
    ASK(store_fits(store_len), 1);
    ASK(screen_fits(dims, screen_len), 8);
    return 0;
}

static uint32_t dimmed(uint32_t pixel) {
    uint32_t seen = pixel & 0xff000000;
    for (uint32_t shift = 0; shift < 24; shift += 8) {
        uint32_t i = pixel >> shift & 0xff;
        seen |= (i * i + 127) / 255 << shift;
    }
    return seen;
}

/* The pixel that the topmost window has at a point of the screen, or else what was there. */
static uint32_t due_pixel(uint32_t x, uint32_t y, uint32_t was) {
    const uint32_t *store = lent_now(STORE);
    uint32_t id = topmost_at(x, y);
    if (id == NOBODY)
        return was;
    RoqRect r = model.windows[id].rect;
    uint32_t pixel = store[(size_t)id * model.c + (size_t)(y - r.pos.y) * r.dims.w + (x - r.pos.x)];
    return model.dimmed ? dimmed(pixel) : pixel;
}

/* Whether the screen is as a full redraw leaves it. */
static bool is_drawn(RoqDims dims) {
    const uint32_t *now = lent_now(SCREEN), *was = lent_before(SCREEN);
    for (size_t i = 0; i < pixels_of(dims); i++)
        if (now[i] != due_pixel((uint32_t)(i % dims.w), (uint32_t)(i / dims.w), was[i]))
            return false;
    return true;
}

void call_redraw(void) {
    bool forced = one_in(2);
    RoqDims dims = screen_dims();
    size_t len = store_length(), screen_len = length_near(pixels_of(dims), room_of(SCREEN));
    GIVEN(forced, dims.w, dims.h, len, screen_len);
    const uint32_t *store = lend_to_read(STORE, len, NULL);
    uint32_t answer = roq_redraw(session(), forced, dims.w, dims.h, store, len, lend(SCREEN, screen_len), screen_len);
    if (!accepted(answer, due_redraw(dims, len, screen_len)))
        return;
    expect(!forced || is_drawn(dims), "the screen is not that of the topmost windows");
    model_redraw();
}

void call_begin(void) {
    bool forced = one_in(2);
    GIVEN(forced);
    if (accepted(roq_begin(session(), forced), 0))
        model_begin(forced);
}

void call_portion(void) {
    RoqDims dims = screen_dims();
    size_t len = store_length(), screen_len = length_near(pixels_of(dims), room_of(SCREEN));
    GIVEN(dims.w, dims.h, len, screen_len);
    const uint32_t *store = lend_to_read(STORE, len, NULL);
    uint32_t answer = roq_portion(session(), dims.w, dims.h, store, len, lend(SCREEN, screen_len), screen_len);
    uint32_t due = due_redraw(dims, len, screen_len);
    if (accepted(answer, due != 0 ? due : model.walking ? 0 : 20))
        model_portion();
}
