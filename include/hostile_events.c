/* Events, and the windows that points lie in. */
#include "hostile_calls.h"

static uint32_t due_route(RoqEvent e) {
    ASK(e.kind != ROQ_KEY_FIRE, 21);
    ASK(e.kind >= ROQ_RESIZE && e.kind <= ROQ_MOUSE_UP, 11);
    if (e.kind == ROQ_RESIZE)
        return 0;
    ASK(e.kind <= ROQ_TEXT || (e.x <= LIMIT && e.y <= LIMIT), 5);
    ASK(taker_of(e) != NOBODY, 11);
    ASK(e.kind == ROQ_MOUSE_MOVE || model.windows[taker_of(e)].queued < 16, 12);
    return 0;
}

static RoqEvent random_event(void) {
    uint64_t bits = random_bits();
    RoqPos at = position();
    RoqEvent e = {.x = at.x, .y = at.y, .value = (uint32_t)bits};
    e.dx = (int16_t)(uint16_t)(bits >> 32);
    e.dy = (int16_t)(uint16_t)(bits >> 48);
    e.button = (uint8_t)(bits >> 40);
    e.count = (uint8_t)(bits >> 56);
    e.kind = (uint8_t)(odd_one_in(40) ? wild() : 1 + below(9));
    return e;
}

void call_route(void) {
    RoqEvent e = random_event();
    GIVEN(e.kind, e.x, e.y, e.value, e.button, e.count);
    if (accepted(roq_route(session(), e), due_route(e)))
        model_route(e);
}

/* What is due of a route that tells who took the event. */
static RoqRouted due_route_to(RoqEvent e) {
    RoqRouted due = {.answer = due_route(e), .id = ROQ_NO_ID};
    if (due.answer != 0 || e.kind == ROQ_RESIZE)
        return due;
    due.id = taker_of(e);
    RoqEvent h = handed(e, model.windows[due.id].rect);
    due.x = h.x;
    due.y = h.y;
    return due;
}

void call_route_to(void) {
    RoqEvent e = random_event();
    GIVEN(e.kind, e.x, e.y, e.value, e.button, e.count);
    RoqRouted due = due_route_to(e), routed = roq_route_to(session(), e);
    if (accepted(routed.answer, due.answer))
        model_route(e);
    expect(routed.id == due.id && routed.x == due.x && routed.y == due.y, "another window took the event");
}

static bool same_event(RoqEvent a, RoqEvent b) {
    return a.kind == b.kind && a.x == b.x && a.y == b.y && a.value == b.value && a.dx == b.dx && a.dy == b.dy &&
           a.button == b.button && a.count == b.count;
}

void call_pop(void) {
    static const RoqEvent none = {.kind = ROQ_NO_EVENT};
    uint32_t id = id_of_window();
    GIVEN(id);
    uint32_t due = !in_use(id) ? 3 : model.windows[id].queued == 0 && !model.windows[id].moved ? 10 : 0;
    RoqPopped popped = roq_pop(session(), id);
    bool is = accepted(popped.answer, due);
    expect(same_event(popped.event, is ? model_pop(id) : none), "another event is popped");
}

static uint32_t due_hits(const uint32_t *points, size_t len, size_t answers_len) {
    for (size_t i = 0; i < len; i++)
        ASK(points[i] <= LIMIT, 5);
    ASK(len <= 64 && len % 2 == 0 && answers_len >= len / 2 * 3, 25);
    return 0;
}

static bool right_hits(const uint32_t *points, size_t len, const uint32_t *answers) {
    for (size_t i = 0; i < len / 2; i++) {
        uint32_t x = points[2 * i], y = points[2 * i + 1], id = topmost_at(x, y);
        RoqPos pos = {x, y};
        if (id != NOBODY)
            pos = model.windows[id].rect.pos;
        if (answers[3 * i] != id || answers[3 * i + 1] != x - pos.x || answers[3 * i + 2] != y - pos.y)
            return false;
    }
    return true;
}

void call_hits(void) {
    uint32_t points[70];
    size_t len = odd_one_in(12) ? below(70) : 2 * below(one_in(8) ? 33 : 6);
    bool calm = !odd_one_in(12);
    for (size_t i = 0; i < len; i++)
        points[i] = calm ? below(32) : coordinate();
    size_t answers_len = length_near(len / 2 * 3 + often_0(9), 200);
    GIVEN(len, answers_len);
    const uint32_t *lent = lend_to_read(DATA, len, points);
    uint32_t answer = roq_hits(session_to_read(), lent, len, lend(LIST, answers_len), answers_len);
    if (!accepted(answer, due_hits(points, len, answers_len)))
        return;
    expect(right_hits(points, len, lent_now(LIST)), "other windows are hit");
    expect(kept_from(LIST, len / 2 * 3 * sizeof(uint32_t)), "the rest of the list was written");
}
