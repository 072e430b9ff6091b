/* Calls on the windows of a session, with no store: each with random arguments, the answer that is due by the header's
 * questions in their order, and what the model does. */
#include "hostile_calls.h"

#include <string.h>

void call_start(void) {
    uint32_t c = one_in(8) ? wild() : one_in(10) ? 1 + below(20) : 60 + below(400);
    GIVEN(c);
    if (one_in(4))
        memset(session(), 0, sizeof(RoqSession));
    uint32_t due = c >= 1 && c <= 1048576 ? 0 : 2;
    answered(roq_start(session(), c), due);
    expect(surroundings_kept(), "memory beside the session was written");
    model_start(due == 0 ? c : 1);
}

void call_create(void) {
    uint32_t used = 0;
    for (uint32_t id = 0; id < 16; id++)
        used += in_use(id);
    RoqCreated made = roq_create(session());
    if (accepted(made.answer, used < 16 ? 0 : 4))
        expect(made.id == model_create(), "the id is not the smallest unused one");
    else
        expect(made.id == ROQ_NO_ID, "a refused create gives an id");
}

/* A call that has an id alone. */
static void with_id(uint32_t (*call)(RoqSession *, uint32_t), void (*change)(uint32_t)) {
    uint32_t id = id_of_window();
    GIVEN(id);
    if (accepted(call(session(), id), in_use(id) ? 0 : 3))
        change(id);
}

void call_show(void) { with_id(roq_show, model_show); }
void call_raise(void) { with_id(roq_raise, model_raise); }
void call_hide(void) { with_id(roq_hide, model_hide); }
void call_drop(void) { with_id(roq_drop, model_drop); }
void call_mark(void) { with_id(roq_mark, model_mark); }

/* roq_move or roq_drag. */
static void with_place(uint32_t (*call)(RoqSession *, uint32_t, uint32_t, uint32_t),
                       void (*change)(uint32_t, uint32_t, uint32_t)) {
    uint32_t id = id_of_window(), x = coordinate(), y = coordinate();
    GIVEN(id, x, y);
    uint32_t due = !in_use(id) ? 3 : x > LIMIT || y > LIMIT ? 5 : 0;
    if (accepted(call(session(), id, x, y), due))
        change(id, x, y);
}

void call_move(void) { with_place(roq_move, model_move); }
void call_drag(void) { with_place(roq_drag, model_drag); }

void call_set_layer(void) {
    uint32_t id = id_of_window(), layer = odd_one_in(12) ? wild() : below(2);
    GIVEN(id, layer);
    if (accepted(roq_set_layer(session(), id, layer), !in_use(id) ? 3 : layer > 1 ? 17 : 0))
        model_set_layer(id, layer);
}

static uint32_t due_add_display(RoqRect r) {
    ASK(is_small(r), 5);
    ASK(r.dims.w > 0 && r.dims.h > 0 && r.pos.x + r.dims.w <= LIMIT && r.pos.y + r.dims.h <= LIMIT, 15);
    ASK(model.displays < 8, 16);
    return 0;
}

void call_add_display(void) {
    RoqRect r = area();
    GIVEN(r.pos.x, r.pos.y, r.dims.w, r.dims.h);
    if (accepted(roq_add_display(session(), r), due_add_display(r)))
        model.display[model.displays++] = r;
}

void call_display_at(void) {
    static const RoqRect none = {{0, 0}, {0, 0}};
    uint32_t x = coordinate(), y = coordinate();
    bool on = false;
    GIVEN(x, y);
    RoqDisplay d = roq_display_at(session_to_read(), x, y);
    bool is = accepted(d.answer, x > LIMIT || y > LIMIT ? 5 : 0);
    RoqRect due = is ? display_for(x, y, &on) : none;
    expect(d.on == on && same_rect(d.rect, due), "it is another display");
}

void call_focus(void) {
    expect(accepted(0, 0) && roq_focus(session_to_read()) == model.focus, "another window has the focus");
}

void call_rect_of(void) {
    static const RoqRect none = {{0, 0}, {0, 0}};
    uint32_t id = id_of_window();
    GIVEN(id);
    RoqPlaced placed = roq_rect_of(session_to_read(), id);
    bool is = accepted(placed.answer, in_use(id) ? 0 : 3);
    expect(same_rect(placed.rect, is ? model.windows[id].rect : none), "the window is elsewhere");
}

void call_dim(void) {
    bool on = one_in(2);
    GIVEN(on);
    if (accepted(roq_dim(session(), on), 0))
        model_dim(on);
}
