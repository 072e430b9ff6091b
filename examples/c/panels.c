/* The calls of panels.calls, made from C. Writes what the program `replay` writes for that script. */
#include "roqshyn.h"

#include <stdio.h>

enum { C = 72, WIDTH = 12, HEIGHT = 6, STORE = ROQ_WINDOWS * C, SCREEN = WIDTH * HEIGHT };

static RoqSession s;
static uint32_t store[STORE];
static uint32_t screen[SCREEN];

/* The answer of a call that hands nothing else back. */
static void say(uint32_t answer) {
    printf("%u\n", (unsigned)answer);
}

static void say_numbers(uint32_t answer, const uint32_t *numbers, size_t count) {
    printf("%u", (unsigned)answer);
    for (size_t i = 0; i < count; i++)
        printf(" %u", (unsigned)numbers[i]);
    printf("\n");
}

static void create(void) {
    RoqCreated made = roq_create(&s);
    uint32_t id = made.id;
    say_numbers(made.answer, &id, made.answer == ROQ_OK);
}

/* The answer of a call that writes pixels, and how many it altered. */
static void say_altered(RoqAltered written) {
    if (written.answer == ROQ_OK)
        printf("0 %zu\n", written.altered);
    else
        say(written.answer);
}

static void fill(uint32_t id, uint32_t x, uint32_t y, uint32_t w, uint32_t h, uint32_t colour) {
    RoqRect area = {{x, y}, {w, h}};
    say_altered(roq_fill(&s, id, area, colour, store, STORE));
}

static void visible(uint32_t id) {
    uint32_t list[ROQ_VISIBLE_LEN];
    RoqListing seen = roq_visible(&s, id, list, ROQ_VISIBLE_LEN);
    if (seen.answer != ROQ_OK) {
        say(seen.answer);
        return;
    }
    printf("0 %zu", seen.count);
    for (size_t i = 0; i < 4 * seen.count; i++)
        printf(" %u", (unsigned)list[i]);
    printf("\n");
}

static void press(uint32_t x, uint32_t y) {
    RoqEvent e = {.kind = ROQ_MOUSE_DOWN, .x = x, .y = y, .button = 1};
    say(roq_route(&s, e));
}

static void release(uint32_t x, uint32_t y) {
    RoqEvent e = {.kind = ROQ_MOUSE_UP, .x = x, .y = y, .button = 1};
    say(roq_route(&s, e));
}

static void finger(uint32_t x, uint32_t y) {
    RoqEvent e = {.kind = ROQ_MOUSE_MOVE, .x = x, .y = y};
    say(roq_route(&s, e));
}

static void pop(uint32_t id) {
    RoqPopped popped = roq_pop(&s, id);
    RoqEvent e = popped.event;
    printf("%u", (unsigned)popped.answer);
    if (popped.answer == ROQ_OK && e.kind == ROQ_RESIZE)
        printf(" Resize");
    else if (popped.answer == ROQ_OK && e.kind == ROQ_MOUSE_DOWN)
        printf(" MouseDown %u %u %u", (unsigned)e.x, (unsigned)e.y, (unsigned)e.button);
    else if (popped.answer == ROQ_OK && e.kind == ROQ_MOUSE_UP)
        printf(" MouseUp %u %u %u", (unsigned)e.x, (unsigned)e.y, (unsigned)e.button);
    else if (popped.answer == ROQ_OK && e.kind == ROQ_MOUSE_MOVE)
        printf(" MouseMove %u %u %d %d", (unsigned)e.x, (unsigned)e.y, e.dx, e.dy);
    printf("\n");
}

/* Draws, and shows the screen. */
static void redraw(void) {
    say(roq_redraw(&s, false, WIDTH, HEIGHT, store, STORE, screen, SCREEN));
    say_numbers(0, screen, SCREEN);
}

/* A walk of one portion, one more, and the screen. */
static void walk(void) {
    say(roq_begin(&s, false));
    for (int i = 0; i < 2; i++)
        say(roq_portion(&s, WIDTH, HEIGHT, store, STORE, screen, SCREEN));
    say_numbers(0, screen, SCREEN);
}

/* Dimming on, and the screen. */
static void dim(void) {
    say(roq_dim(&s, true));
    redraw();
}

static void draw_panels(void) {
    static const uint32_t track[WIDTH] = {2, 2, 2, 2, 2, 2, 2, 2, 2, 2, 2, 2};
    RoqRect line = {{0, 3}, {WIDTH, 1}};
    say(roq_start(&s, C));
    create();
    create();
    say(roq_resize(&s, 0, 12, 6, store, STORE));
    say(roq_resize(&s, 1, 6, 3, store, STORE));
    fill(0, 0, 0, 12, 6, 1);
    say_altered(roq_blit(&s, 0, line, WIDTH, track, WIDTH, store, STORE));
    fill(1, 0, 0, 6, 3, 3);
    fill(1, 1, 1, 2, 1, 4);
    say(roq_move(&s, 1, 4, 2));
    say(roq_show(&s, 0));
    say(roq_show(&s, 1));
    redraw();
    visible(0);
}

static void press_panels(void) {
    press(5, 3);
    press(1, 3);
    press(12, 0);
    finger(7, 4);
    printf("0 %u\n", (unsigned)roq_focus(&s));
    for (int i = 0; i < 4; i++)
        pop(1);
    for (int i = 0; i < 3; i++)
        pop(0);
}

/* Where a redraw or a portion will write. */
static void stale(uint32_t which) {
    const RoqRect whole = {{0, 0}, {WIDTH, HEIGHT}};
    RoqStale stale = roq_stale(&s, which, whole);
    RoqRect r = stale.rect;
    uint32_t numbers[4] = {r.pos.x, r.pos.y, r.dims.w, r.dims.h};
    if (stale.answer == 0 && !stale.due)
        printf("0 none\n");
    else
        say_numbers(stale.answer, numbers, stale.due ? 4 : 0);
}

/* The button is painted; what the redraw will write, and what there is to write after it. */
static void press_button(void) {
    fill(1, 1, 1, 2, 1, 5);
    say(roq_mark(&s, 1));
    stale(ROQ_REDRAW);
    stale(ROQ_PORTION);
    say(roq_redraw(&s, false, WIDTH, HEIGHT, store, STORE, screen, SCREEN));
    stale(ROQ_REDRAW);
    say_numbers(0, screen, SCREEN);
}

static void window(uint32_t id) {
    RoqWindow w = roq_window(&s, id);
    RoqRect r = w.rect;
    uint32_t numbers[11] = {r.pos.x, r.pos.y,     r.dims.w, r.dims.h, w.shown, w.place,
                            w.layer, w.maximised, w.marked, w.queued, w.moved};
    say_numbers(w.answer, numbers, w.answer == 0 ? 11 : 0);
}

static void session(void) {
    RoqState t = roq_state(&s);
    uint32_t walk = t.walk ? 1 + t.full : 0;
    uint32_t numbers[9] = {t.c, t.shown, t.focus, t.grab, t.dimmed, t.owed, walk, t.left, t.displays};
    say_numbers(0, numbers, 9);
}

/* A release, and who took it. */
static void released_to(uint32_t x, uint32_t y) {
    RoqEvent e = {.kind = ROQ_MOUSE_UP, .x = x, .y = y, .button = 1};
    RoqRouted to = roq_route_to(&s, e);
    uint32_t numbers[3] = {to.id, to.x, to.y};
    say_numbers(to.answer, numbers, 3);
}

/* A press and its release off the panel; what waits; and how things stand. */
static void ask(void) {
    press(5, 3);
    released_to(1, 3);
    printf("0 %u\n", (unsigned)roq_waiting(&s));
    pop(1);
    pop(1);
    printf("0 %u\n", (unsigned)roq_waiting(&s));
    window(1);
    window(2);
    session();
}

/* The plan is raised while the panel is pressed, and then the panel, which gets the release. */
static void raise_both(void) {
    press(5, 3);
    say(roq_raise(&s, 0));
    redraw();
    release(1, 3);
    say(roq_raise(&s, 1));
    redraw();
    for (int i = 0; i < 3; i++)
        pop(1);
}

/* A finger drags the panel to the left and back: the plan is drawn where the panel was. There is no such place as the
 * second. */
static void drag_panel(void) {
    say(roq_drag(&s, 1, 2, 1));
    redraw();
    say(roq_drag(&s, 1, 32768, 1));
    say(roq_drag(&s, 1, 4, 2));
    redraw();
}

/* The panel stays above the plan, which is hidden and shown again. */
static void keep_on_top(void) {
    say(roq_set_layer(&s, 1, 2));
    say(roq_set_layer(&s, 1, 1));
    say(roq_hide(&s, 0));
    say(roq_show(&s, 0));
    redraw();
}

static void display(uint32_t w, uint32_t h) {
    RoqRect region = {{0, 0}, {w, h}};
    say(roq_add_display(&s, region));
}

/* The panel fills a display. */
static void maximise(void) {
    display(WIDTH, 0);
    display(WIDTH, HEIGHT);
    RoqDisplay at = roq_display_at(&s, 20, 3);
    RoqRect r = at.rect;
    printf("%u %s %u %u", (unsigned)at.answer, at.on ? "on" : "closest", (unsigned)r.pos.x, (unsigned)r.pos.y);
    printf(" %u %u\n", (unsigned)r.dims.w, (unsigned)r.dims.h);
    say(roq_maximise(&s, 1, store, STORE));
    say(roq_update_dims(&s, store, STORE));
    redraw();
    pop(1);
}

int main(void) {
    draw_panels();
    press_panels();
    press_button();
    ask();
    raise_both();
    drag_panel();
    keep_on_top();
    maximise();
    say(roq_drop(&s, 1));
    redraw();
    pop(1);
    fill(0, 0, 3, 12, 1, 6);
    say(roq_mark(&s, 0));
    walk();
    fill(0, 0, 3, 12, 1, 0xff8040);
    dim();
    dim();
    return 0;
}
