/* Fingers and the mouse, and what windows do with the events that they popped. Each touch holds a panel of its own: it
 * is dragged by its bar and thrown by its button.
 *
 * The library remembers one window, that of the last press (N1), and a release goes there. Of two fingers that are down
 * the first one's release would go to the second one's panel. So the desk remembers the window of every touch. A
 * release is routed only if its press was the last one; otherwise the desk hands it over itself.
 *
 * The emergency stop rests on none of this. No touch, remembered window or queue is looked at before it: see
 * press_at. */
#include "desk.h"

#include <stdio.h>

static bool same(Who a, Who b) {
    return a.device == b.device && a.finger == b.finger;
}

/* The touch of somebody who is down, else NULL. */
static Touch *touch_of(Who who) {
    for (Touch *t = desk->touches; t < desk->touches + TOUCHES; t++)
        if (t->down && same(t->who, who)) return t;
    return NULL;
}

/* A free place, or else the oldest touch, which may be a finger that is gone and whose release was lost. */
static Touch *place(void) {
    Touch *oldest = desk->touches;
    for (Touch *t = desk->touches; t < desk->touches + TOUCHES; t++) {
        if (!t->down) return t;
        if (t->press < oldest->press) oldest = t;
    }
    return oldest;
}

bool is_held(uint32_t id) {
    for (const Touch *t = desk->touches; t < desk->touches + TOUCHES; t++)
        if (t->down && t->window == id && (t->part == BUTTON || t->part == KNOB)) return true;
    return false;
}

/* A touch holds nothing any more: its release, if it comes, throws and resets nothing. */
static void give_up(Touch *t) {
    Part held = t->part;
    t->part = NOTHING;
    if (held == BUTTON) draw_panel(t->window);
    if (held == KNOB) draw_stop();
}

static void end(Touch *t) {
    if (t == NULL) return;
    give_up(t);
    t->down = false;
}

void forget(Who who) {
    end(touch_of(who));
}

void forget_all(void) {
    for (Touch *t = desk->touches; t < desk->touches + TOUCHES; t++) end(t);
}

/* ---- The emergency stop and the turnouts ---- */

static bool in_button(uint32_t id, uint32_t x, uint32_t y) {
    RoqDims size = rect_of(id).dims;
    return x >= BX && x < size.w - BX && y >= BY && y < size.h - BX;
}

/* In an end of the stop's lower half, LEFT or RIGHT. */
static bool in_end(uint32_t end, uint32_t x, uint32_t y) {
    return x >= end && x < end + END && y >= SH / 2 && y < SH - 6;
}

/* The stop latches. A slide alone resets it, which begins on the left end while the desk is stopped and is let go on
 * the right end: a second press does not, nor a palm that lies on it, nor a press whose release is lost. Buttons that
 * are held when the desk stops are given up, and so is a slide. */
void set_stopped(bool on) {
    desk->stopped = on;
    puts(on ? "stopped" : "reset");
    for (Touch *t = desk->touches; t < desk->touches + TOUCHES; t++)
        if (t->part != BAR) give_up(t);
    draw_all();
    desk->unsaved = true;
}

/* While the desk is stopped every turnout refuses. */
static void throw_turnout(uint32_t id) {
    if (desk->stopped) {
        printf("%s refuses\n", names[id]);
        return;
    }
    desk->reverse[id] = !desk->reverse[id];
    printf("%s lies %s\n", names[id], desk->reverse[id] ? "reverse" : "normal");
    draw_turnout(id);
}

/* ---- What a window does with an event that it popped, at a point of its own ---- */

/* A window is held by one touch, the last that pressed it: the one before may be a finger that is gone. */
static void hold(Touch *t, Part part) {
    for (Touch *other = desk->touches; other < desk->touches + TOUCHES; other++)
        if (other != t && other->down && other->window == t->window) give_up(other);
    t->part = part;
}

/* STOP pops no press but those that come while the desk is stopped already (see press_at). */
static void pressed(Touch *t, uint32_t x, uint32_t y) {
    Part part = NOTHING;
    if (t->window == LENS || (is_panel(t->window) && y <= TOP)) part = BAR;
    if (is_panel(t->window) && in_button(t->window, x, y)) part = BUTTON;
    if (t->window == STOP && in_end(LEFT, x, y)) part = KNOB;
    t->x = x, t->y = y;
    hold(t, part);
    if (t->part == BUTTON) draw_panel(t->window);
    if (t->part == KNOB) draw_stop();
}

/* The panel follows a point of the screen, (x,y) in the window `of` that popped the move: the differences of moves
 * would not do, since they are relative to a window that moves. */
static void moved(const Touch *t, RoqEvent move, RoqPos of) {
    int x = (int)(of.x + move.x) - (int)t->x, y = (int)(of.y + move.y) - (int)t->y;
    RoqDims size = rect_of(t->window).dims;
    uint32_t to_x = between(0, x, (int)(desk->displays * W - size.w)), to_y = between(0, y, (int)(H - size.h));
    if (t->part == BAR) must("drag", roq_drag(&desk->s, t->window, to_x, to_y));
}

/* Beside the window a release comes at its edge, where there is no button. */
static void released(Touch *t, uint32_t x, uint32_t y) {
    RoqPos at = rect_of(t->window).pos;
    if (t->part == BAR) printf("%s is at %u %u\n", names[t->window], (unsigned)at.x, (unsigned)at.y);
    if (t->part == BUTTON && in_button(t->window, x, y)) throw_turnout(t->window);
    if (t->part == KNOB && in_end(RIGHT, x, y)) set_stopped(false);
}

/* ---- From the screen to a window ---- */

/* The window under a point of the screen. */
static uint32_t under(RoqEvent e) {
    uint32_t point[2] = {e.x, e.y}, hit[3];
    must("hits", roq_hits(&desk->s, point, 2, hit, 3));
    return hit[0];
}

void light(uint32_t id) {
    uint32_t before = desk->lit;
    if (id == before) return;
    desk->lit = id;
    if (is_panel(before)) draw_panel(before);
    if (is_panel(id)) draw_panel(id);
}

/* What a window popped. */
static void popped_by(uint32_t id, Touch *t, RoqEvent e) {
    if (e.kind == ROQ_RESIZE && is_panel(id)) draw_panel(id);
    if (e.kind == ROQ_KEY_DOWN) desk->throttle = between(0, (int)desk->throttle + (e.value == SDLK_UP ? 1 : -1), 28), draw_status();
    if (t == NULL) return;
    if (e.kind == ROQ_MOUSE_DOWN) pressed(t, e.x, e.y);
    if (e.kind == ROQ_MOUSE_MOVE) moved(t, e, rect_of(id).pos);
    if (e.kind == ROQ_MOUSE_UP && id == t->window) released(t, e.x, e.y);
}

/* Events are popped as soon as they are routed: so they are this touch's, no queue fills up, and no move comes after a
 * release that it was before. */
void hear(Touch *t) {
    for (uint32_t waiting; (waiting = roq_waiting(&desk->s)) != 0;)
        for (uint32_t id = 0; id < NOBODY; id++)
            if (waiting >> id & 1) popped_by(id, t, roq_pop(&desk->s, id).event);
}

/* When the last events were. Of too many the older half is dropped, and all of them when the time, which has 32 bits
 * here, begins anew after 49 days. */
static void count_event(void) {
    if (desk->events > 0 && (uint32_t)desk->now < desk->times[desk->events - 1]) desk->events = 0;
    if (desk->events == TIMES) SDL_memmove(desk->times, desk->times + TIMES / 2, sizeof desk->times / 2), desk->events /= 2;
    desk->times[desk->events++] = (uint32_t)desk->now;
}

static void route(Touch *t, RoqEvent e) {
    must("route", roq_route(&desk->s, e));
    count_event();
    hear(t);
}

/* A key of the throttle goes to the focus. */
void key(uint32_t value) {
    route(NULL, (RoqEvent){.kind = ROQ_KEY_DOWN, .value = value});
}

static RoqEvent event(uint8_t kind, int x, int y) {
    RoqEvent e = {.kind = kind, .x = between(0, x, (int)desk->displays * W - 1), .y = between(0, y, H - 1), .button = kind != ROQ_MOUSE_MOVE};
    return e;
}

/* The point of a window that is nearest, as the library gives it. */
static RoqPos nearest(RoqRect of, RoqEvent e) {
    RoqPos at = {between(0, (int)e.x - (int)of.pos.x, (int)of.dims.w - 1), between(0, (int)e.y - (int)of.pos.y, (int)of.dims.h - 1)};
    return at;
}

/* The press goes to the window that roq_hits named before it, since the library takes both from what is seen. */
static void tell_press(RoqEvent e, uint32_t id) {
    RoqPos in = nearest(rect_of(id), e);
    snprintf(desk->pressed, sizeof desk->pressed, "(%u,%u) > %s (%u,%u)", (unsigned)e.x, (unsigned)e.y, names[id], (unsigned)in.x, (unsigned)in.y);
    draw_status();
}

/* The press that stops comes first and is not routed: roq_hits says that it is STOP's, whoever else is down, is
 * remembered or was lost, and however full a queue is. Since STOP never pops it, that same press cannot begin the slide
 * that resets.
 *
 * No other press is passed over either. Who presses again without a release has lost it. A panel that is pressed comes
 * to the front. */
void press_at(Who who, int x, int y) {
    RoqEvent e = event(ROQ_MOUSE_DOWN, x, y);
    uint32_t id = under(e);
    bool stops = id == STOP && !desk->stopped;
    if (stops) set_stopped(true);
    light(id);
    forget(who);
    if (stops) tell_press(e, STOP);
    if (stops) return;
    Touch *t = place();
    end(t);
    *t = (Touch){.down = true, .who = who, .window = id, .press = ++desk->presses};
    if (is_panel(id) || id == LENS) must("raise", roq_raise(&desk->s, id));
    route(t, e);
    tell_press(e, id);
}

void move_to(Who who, int x, int y) {
    RoqEvent e = event(ROQ_MOUSE_MOVE, x, y);
    route(touch_of(who), e);
    light(under(e));
}

void let_go_at(Who who, int x, int y) {
    RoqEvent e = event(ROQ_MOUSE_UP, x, y);
    Touch *t = touch_of(who);
    if (t == NULL) return;
    RoqPos at = nearest(rect_of(t->window), e);
    if (t->press == desk->presses) route(t, e);
    else released(t, at.x, at.y);
    end(t);
    light(under(e));
}
