/* A station that tests record: station SECONDS [SEED]. A plan as large as the display and six panels; with DISPLAYS a
 * strip of displays, each with a plan of its own that is blitted whole. Each second has 200 events, by which a panel
 * is pressed, dragged and let go, 30 redraws, and a button that is painted. It takes as long as its calls do, and
 * prints how many nanoseconds of a processor a second took, and the longest. */
#define _POSIX_C_SOURCE 200809L
#include "roqshyn.h"

#include <stdio.h>
#include <stdlib.h>
#include <time.h>

#ifndef W
#define W 800
#define H 480
#endif
#ifndef DISPLAYS
#define DISPLAYS 1
#endif

enum { C = W * H, SW = W * DISPLAYS, STORE = 16 * C, PANELS = 6, PW = 200, PH = 150, EVENTS = 200, REDRAWS = 30 };

static RoqSession s;
static uint32_t store[STORE], screen[SW * H], picture[PW * PH], plan[C];
static uint32_t seed;

static void must(uint32_t answer) {
    if (answer != 0)
        exit(1);
}

static uint32_t random_below(uint32_t n) {
    seed = seed * 1664525 + 1013904223;
    return (seed >> 8) % n;
}

static void open_window(uint32_t id, uint32_t x, uint32_t y, uint32_t w, uint32_t h) {
    RoqRect all = {{0, 0}, {w, h}};
    must(roq_create(&s).answer);
    must(roq_resize(&s, id, w, h, store, STORE));
    must(roq_move(&s, id, x, y));
    must(roq_fill(&s, id, all, 0x203040 * (id + 1), store, STORE).answer);
    must(roq_show(&s, id));
}

static void paint(uint32_t id) {
    RoqRect button = {{10, 40}, {60, 30}};
    for (size_t i = 0; i < 60 * 30; i++)
        picture[i] = random_below(4) * 0x101010;
    must(roq_blit(&s, id, button, 60, picture, 60 * 30, store, STORE).answer);
    must(roq_mark(&s, id));
}

/* The plan of another display, as one blit. */
static void open_plan(uint32_t id, uint32_t x) {
    RoqRect all = {{0, 0}, {W, H}};
    open_window(id, x, 0, W, H);
    for (size_t i = 0; i < C; i++)
        plan[i] = (uint32_t)(i / id % 9) * 0x1c1c1c;
    must(roq_blit(&s, id, all, W, plan, C, store, STORE).answer);
    must(roq_mark(&s, id));
}

/* Routes an event, and pops what came of it; the point that the panel was given. */
static RoqEvent routed(uint8_t kind, uint32_t x, uint32_t y, uint32_t id) {
    RoqEvent e = {.kind = kind, .x = x, .y = y, .button = kind != ROQ_MOUSE_MOVE};
    must(roq_route(&s, e));
    RoqPopped popped;
    while ((popped = roq_pop(&s, id)).answer == 0)
        e = popped.event;
    return e;
}

static void second(uint32_t n) {
    uint32_t id = 1 + n % PANELS;
    RoqPos at = roq_rect_of(&s, id).rect.pos;
    must(roq_raise(&s, id));
    routed(ROQ_MOUSE_DOWN, at.x + 5, at.y + 5, id);
    for (uint32_t i = 0; i < EVENTS - 2; i++) {
        at = roq_rect_of(&s, id).rect.pos;
        routed(ROQ_MOUSE_MOVE, at.x + 5, at.y + 5, id);
        uint32_t x = 20 + (at.x + 1 + random_below(4)) % (W - PW - 20);
        must(roq_drag(&s, id, x, 20 + (at.y + random_below(3)) % (H - PH - 20)));
        if (i % 40 == 0)
            paint(id);
        if (i * REDRAWS / EVENTS != (i + 1) * REDRAWS / EVENTS)
            must(roq_redraw(&s, false, SW, H, store, STORE, screen, SW * H));
    }
    at = roq_rect_of(&s, id).rect.pos;
    routed(ROQ_MOUSE_UP, at.x + 5, at.y + 5, id);
}

static double now(void) {
    struct timespec t;
    clock_gettime(CLOCK_PROCESS_CPUTIME_ID, &t);
    return (double)t.tv_sec * 1e9 + (double)t.tv_nsec;
}

int main(int count, char **words) {
    uint32_t seconds = count > 1 ? (uint32_t)strtoul(words[1], NULL, 10) : 1;
    double longest = 0, all = 0;
    seed = count > 2 ? (uint32_t)strtoul(words[2], NULL, 10) : 1;
    must(roq_start(&s, C));
    open_window(0, 0, 0, W, H);
    for (uint32_t id = 1; id <= PANELS; id++)
        open_window(id, 30 * id, 20 * id, PW, PH);
    for (uint32_t display = 1; display < DISPLAYS; display++)
        open_plan(PANELS + display, W * display);
    for (uint32_t n = 0; n < seconds; n++) {
        double from = now();
        second(n);
        double taken = now() - from;
        all += taken;
        longest = taken > longest ? taken : longest;
    }
    printf("%.0f %.0f\n", all / (seconds == 0 ? 1 : seconds), longest);
    return 0;
}
