/* A throttle's keys get in between the portions of a redraw. The screen is eight displays side by side, 6,400 by 480, each with a plan and
 * a panel; the last panel shows the throttle. A key comes every 5 ms while all of the screen is drawn over and over, first by undivided
 * redraws and then in portions. Lines that begin with # have times and counts, which differ from run to run. */
#define _POSIX_C_SOURCE 199309L
#include "roqshyn.h"

#include <stdio.h>
#include <stdlib.h>
#include <string.h>
#include <time.h>

enum { W = 800, HEIGHT = 480, C = W * HEIGHT, STORE = ROQ_WINDOWS * C, WIDTH = 8 * W, SCREEN = WIDTH * HEIGHT };
enum { KEYS = 100, EVERY = 5000000, THROTTLE = 15 };

static RoqSession s;
static uint32_t store[STORE], undivided[SCREEN], divided[SCREEN];

/* How often something was drawn, how many keys were routed, when the next is due, and how long one waited at most, in nanoseconds. */
typedef struct Run {
    unsigned drawn, routed;
    uint64_t due, longest;
} Run;

static void must(uint32_t answer) {
    if (answer != ROQ_OK)
        exit((int)answer);
}

/* Nanoseconds of this program's own time: what else the machine does is not counted. */
static uint64_t now(void) {
    struct timespec t;
    clock_gettime(CLOCK_PROCESS_CPUTIME_ID, &t);
    return (uint64_t)t.tv_sec * 1000000000 + (uint64_t)t.tv_nsec;
}

static void fill(uint32_t id, uint32_t x, uint32_t y, uint32_t w, uint32_t h, uint32_t colour) {
    RoqRect area = {{x, y}, {w, h}};
    must(roq_fill(&s, id, area, colour, store, STORE).answer);
}

static void window(uint32_t id, uint32_t x, uint32_t y, uint32_t w, uint32_t h) {
    must(roq_create(&s).answer);
    must(roq_resize(&s, id, w, h, store, STORE));
    must(roq_pop(&s, id).answer);
    fill(id, 0, 0, w, h, 0x181e26 + 0x0a0b0c * (uint32_t)id);
    must(roq_move(&s, id, x, y));
    must(roq_show(&s, id));
}

/* The plans lie below the panels; the throttle is shown last and has the focus. */
static void scene(void) {
    must(roq_start(&s, C));
    for (uint32_t k = 0; k < 8; k++)
        window(k, k * W, 0, W, HEIGHT);
    for (uint32_t k = 0; k < 8; k++)
        window(8 + k, k * W + 100, 100, 300, 200);
}

/* The throttle takes a key and shows it as a bar. */
static void key(uint32_t value) {
    must(roq_route(&s, (RoqEvent){.kind = ROQ_KEY_DOWN, .value = value}));
    fill(THROTTLE, 20, 80, 260, 40, 0);
    fill(THROTTLE, 20, 80, 2 * roq_pop(&s, THROTTLE).event.value, 40, 0x3cbe5a);
    must(roq_mark(&s, THROTTLE));
}

/* Routes the keys that are due by now. */
static void route(Run *run) {
    for (; run->routed < KEYS && run->due <= now(); run->due += EVERY) {
        uint64_t wait = now() - run->due;
        run->longest = wait > run->longest ? wait : run->longest;
        key(run->routed++);
    }
}

static uint32_t portion(void) {
    return roq_portion(&s, WIDTH, HEIGHT, store, STORE, divided, SCREEN);
}

static void draw_all(void) {
    must(roq_redraw(&s, true, WIDTH, HEIGHT, store, STORE, undivided, SCREEN));
}

/* One window; where the walk is over another begins. */
static void draw_next(void) {
    if (portion() == ROQ_ERROR_NO_WALK) {
        must(roq_begin(&s, true));
        must(portion());
    }
}

static Run keys_between(void (*draw)(void)) {
    scene();
    Run run = {.due = now()};
    for (; run.routed < KEYS; run.drawn++) {
        draw();
        route(&run);
    }
    return run;
}

static void tell(const char *what, Run run) {
    printf("keys routed between %s: %u\n", what, run.routed);
    printf("# %u %s, a key waited %u us at most\n", run.drawn, what, (unsigned)(run.longest / 1000));
}

int main(void) {
    /* The system gives memory at its first use, which is not to be timed. */
    memset(undivided, 1, sizeof undivided);
    memset(divided, 1, sizeof divided);
    tell("undivided redraws", keys_between(draw_all));
    draw_all();
    tell("portions", keys_between(draw_next));
    must(roq_begin(&s, true));
    while (portion() == ROQ_OK)
        continue;
    bool differ = memcmp(undivided, divided, sizeof divided) != 0;
    printf("the screens are %s\n", differ ? "different" : "equal");
    return differ;
}
