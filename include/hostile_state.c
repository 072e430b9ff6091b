/* What waits, and how things stand. */
#include "hostile_calls.h"

void call_waiting(void) {
    uint32_t due = 0;
    for (uint32_t id = 0; id < 16; id++)
        if (in_use(id) && (model.windows[id].queued > 0 || model.windows[id].moved))
            due |= UINT32_C(1) << id;
    expect(accepted(0, 0) && roq_waiting(session_to_read()) == due, "other windows wait");
}

static bool stands(RoqWindow w, uint32_t id) {
    const struct window *m = &model.windows[id];
    return same_rect(w.rect, m->rect) && w.shown == is_shown(id) && w.place == (w.shown ? place_of(id) : 0) &&
           w.layer == m->layer && w.maximised == m->maximised && w.marked == m->marked && w.queued == m->queued &&
           w.moved == m->moved;
}

static bool is_nothing(RoqWindow w) {
    static const RoqRect none = {{0, 0}, {0, 0}};
    return same_rect(w.rect, none) && !w.shown && w.place == 0 && w.layer == 0 && !w.maximised && !w.marked &&
           w.queued == 0 && !w.moved;
}

void call_window(void) {
    uint32_t id = id_of_window();
    GIVEN(id);
    RoqWindow w = roq_window(session_to_read(), id);
    if (accepted(w.answer, in_use(id) ? 0 : 3))
        expect(stands(w, id), "the window stands otherwise");
    else
        expect(is_nothing(w), "a refused window is not all 0");
}

void call_state(void) {
    RoqState s = roq_state(session_to_read());
    expect(accepted(0, 0) && s.c == model.c && s.shown == model.shown && s.displays == model.displays, "other counts");
    expect(s.focus == (model.shown > 0 ? model.focus : NOBODY) && s.grab == model.press_owner, "other windows");
    expect(s.dimmed == model.dimmed && s.owed == model.owed, "other flags");
    uint32_t left = model.walking ? model.shown - model.walked : 0;
    expect(s.walk == model.walking && s.full == model.full && s.left == left, "it is another walk");
}
