/* Looks: any doubles as corner and factor. */
#include "hostile_calls.h"

#include <math.h>

/* Any double: quarters, numbers beside them, and those that no corner can be. */
static double corner(void) {
    static const double odd[] = {-0.0, 32767, 32767.25, 32766.75, 0.1, -0.25, 1e-310, 1e308, -1, 4294967296.0, 1 / 3.0};
    union {
        uint64_t bits;
        double number;
    } any = {random_bits()};
    if (odd_one_in(40))
        return any.number;
    if (odd_one_in(64))
        return one_in(2) ? INFINITY : NAN;
    return one_in(16) ? odd[below(sizeof odd / sizeof odd[0])] : below(80) / 4.0;
}

static double factor(void) {
    static const double right[] = {0.25, 0.5, 1, 2, 4};
    return one_in(12) ? corner() : right[below(5)];
}

static bool in_quarters(double at) { return at >= 0 && at <= LIMIT && (double)(uint32_t)(4 * at) == 4 * at; }

static bool look_is_right(RoqLook l) {
    bool factor_is_right = l.factor == 0.25 || l.factor == 0.5 || l.factor == 1 || l.factor == 2 || l.factor == 4;
    return l.fit || (factor_is_right && in_quarters(l.x) && in_quarters(l.y));
}

static uint32_t due_look(uint32_t id, RoqLook look, RoqDims dims, size_t store_len, size_t target_len) {
    ASK(store_fits(store_len), 1);
    ASK(in_use(id), 3);
    ASK(look_is_right(look), 22);
    ASK(screen_fits(dims, target_len), 23);
    return 0;
}

/* What fit takes: the corner, and the greatest factor with which the window passes the target in neither direction. */
static RoqLook fitting(uint32_t id, RoqDims target) {
    RoqDims dims = model.windows[id].rect.dims;
    RoqLook look = {0, 0, 4, false};
    while (look.factor > 0.25 && (dims.w * look.factor > target.w || dims.h * look.factor > target.h))
        look.factor /= 2;
    return look;
}

static uint32_t looked_at(RoqLook look, uint32_t id, uint32_t i, uint32_t j) {
    const uint32_t *store = lent_now(STORE);
    RoqDims dims = model.windows[id].rect.dims;
    uint32_t x = (uint32_t)(look.x + i / look.factor), y = (uint32_t)(look.y + j / look.factor);
    return x < dims.w && y < dims.h ? store[(size_t)id * model.c + (size_t)y * dims.w + x] : 0;
}

/* Whether the target has what a look shows. */
static bool is_shown_by(RoqLook look, uint32_t id, RoqDims target) {
    const uint32_t *now = lent_now(SCREEN);
    for (size_t i = 0; i < pixels_of(target); i++)
        if (now[i] != looked_at(look, id, (uint32_t)(i % target.w), (uint32_t)(i / target.w)))
            return false;
    return true;
}

static RoqLook random_look(void) {
    RoqLook look;
    look.x = corner();
    look.y = corner();
    look.factor = factor();
    look.fit = one_in(4);
    return look;
}

void call_look(void) {
    uint32_t id = id_of_window();
    RoqLook look = random_look();
    RoqDims dims = screen_dims();
    size_t len = store_length(), target_len = length_near(pixels_of(dims), room_of(SCREEN));
    GIVEN(id, look.fit, dims.w, dims.h, len, target_len);
    const uint32_t *store = lend_to_read(STORE, len, NULL);
    uint32_t *target = lend(SCREEN, target_len);
    uint32_t answer = roq_look(session_to_read(), id, look, dims.w, dims.h, store, len, target, target_len);
    if (accepted(answer, due_look(id, look, dims, len, target_len)))
        expect(is_shown_by(look.fit ? fitting(id, dims) : look, id, dims), "the target is another");
}
