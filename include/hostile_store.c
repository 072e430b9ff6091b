/* Calls that are lent a store, and write it. */
#include "hostile_calls.h"

size_t store_length(void) { return length_near(16 * (uint64_t)model.c, room_of(STORE)); }

bool store_fits(size_t len) { return len == 16 * (uint64_t)model.c; }

uint64_t pixels_of(RoqDims dims) { return (uint64_t)dims.w * dims.h; }

/* Whether the store is as before outside the first pixels of a window. */
static bool others_kept(uint32_t id, uint64_t pixels) {
    return kept_outside(STORE, (size_t)id * model.c, (size_t)id * model.c + pixels);
}

static uint32_t due_resize(uint32_t id, RoqDims dims, size_t store_len) {
    ASK(store_fits(store_len), 1);
    ASK(in_use(id), 3);
    ASK(dims.w <= LIMIT && dims.h <= LIMIT, 5);
    ASK(pixels_of(dims) <= model.c, 6);
    return 0;
}

void call_resize(void) {
    uint32_t id = id_of_window();
    RoqDims dims = sides();
    size_t len = store_length();
    GIVEN(id, dims.w, dims.h, len);
    if (!accepted(roq_resize(session(), id, dims.w, dims.h, lend(STORE, len), len), due_resize(id, dims, len)))
        return;
    expect(others_kept(id, model.c), "pixels of another window were written");
    model_resize(id, dims);
}

static uint32_t due_maximise(uint32_t id, size_t store_len) {
    ASK(store_fits(store_len), 1);
    ASK(in_use(id), 3);
    ASK(pixels_of(maximised_rect(id).dims) <= model.c, 6);
    return 0;
}

void call_maximise(void) {
    uint32_t id = id_of_window();
    size_t len = store_length();
    GIVEN(id, len);
    if (!accepted(roq_maximise(session(), id, lend(STORE, len), len), due_maximise(id, len)))
        return;
    expect(others_kept(id, model.c), "pixels of another window were written");
    model_maximise(id);
}

static uint32_t due_update_dims(size_t store_len) {
    ASK(store_fits(store_len), 1);
    for (uint32_t id = 0; id < 16; id++) {
        const struct window *w = &model.windows[id];
        bool on;
        ASK(!w->used || !w->maximised || pixels_of(display_for(w->rect.pos.x, w->rect.pos.y, &on).dims) <= model.c, 6);
    }
    return 0;
}

void call_update_dims(void) {
    size_t len = store_length();
    GIVEN(len);
    if (accepted(roq_update_dims(session(), lend(STORE, len), len), due_update_dims(len)))
        model_update_dims();
}

static uint32_t due_fill(uint32_t id, RoqRect r, size_t store_len) {
    ASK(store_fits(store_len), 1);
    ASK(in_use(id), 3);
    ASK(is_small(r), 5);
    return 0;
}

/* What fill and blit give: the count of pixels that differ, all of them the window's. */
static void judge_write(RoqAltered got, uint32_t due, uint32_t id) {
    if (!accepted(got.answer, due)) {
        expect(got.altered == 0, "a refused write counts pixels");
        return;
    }
    expect(got.altered == altered_in(STORE), "it counts other pixels than it altered");
    expect(others_kept(id, pixels_of(model.windows[id].rect.dims)), "pixels outside the window were written");
}

void call_fill(void) {
    uint32_t id = id_of_window(), colour = one_in(2) ? below(4) : (uint32_t)random_bits();
    RoqRect r = area();
    size_t len = store_length();
    GIVEN(id, r.pos.x, r.pos.y, r.dims.w, r.dims.h, colour, len);
    judge_write(roq_fill(session(), id, r, colour, lend(STORE, len), len), due_fill(id, r, len), id);
}

static uint32_t due_blit(uint32_t id, RoqRect r, size_t stride, size_t store_len) {
    ASK(due_fill(id, r, store_len) == 0, due_fill(id, r, store_len));
    ASK(stride >= 1, 7);
    return 0;
}

void call_blit(void) {
    uint32_t id = id_of_window();
    RoqRect r = area();
    size_t stride = odd_one_in(16) ? wild_stride() : below(20), data_len = one_in(8) ? 0 : below(200),
           len = store_length();
    GIVEN(id, r.pos.x, r.pos.y, r.dims.w, r.dims.h, stride, data_len, len);
    const uint32_t *data = lend_to_read(DATA, data_len, NULL);
    judge_write(roq_blit(session(), id, r, stride, data, data_len, lend(STORE, len), len), due_blit(id, r, stride, len),
                id);
}
