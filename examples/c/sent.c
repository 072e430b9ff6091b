/* Eight displays side by side, each on a slow bus with a memory of its own. A finger drags a panel over all of them.
 * Before each redraw every display's rectangle is asked for what will be stale in it, and after the redraw that alone is
 * sent. It writes how many bytes that were, beside those of the whole screen each time, and whether the displays show
 * the screen. */
#include "roqshyn.h"

#include <stdio.h>
#include <stdlib.h>
#include <string.h>

enum { W = 320, H = 240, DISPLAYS = 8, WIDTH = DISPLAYS * W, SCREEN = WIDTH * H, C = W * H, STORE = 16 * C };
enum { PANEL = DISPLAYS, PW = 120, PH = 90, STEP = 20 };

static RoqSession s;
static uint32_t store[STORE], screen[SCREEN];
/* What each display shows. */
static uint32_t shown[DISPLAYS][C];
static size_t sent, messages;

/* Every call here is one that the library takes: another answer is a mistake of ours. */
static void must(const char *call, uint32_t answer) {
    if (answer == 0) return;
    fprintf(stderr, "sent: %s was answered by %u\n", call, (unsigned)answer);
    exit(1);
}

static RoqRect rect(uint32_t x, uint32_t y, uint32_t w, uint32_t h) {
    RoqRect r = {{x, y}, {w, h}};
    return r;
}

static void window(uint32_t id, RoqRect at, uint32_t colour) {
    must("create", roq_create(&s).answer);
    must("resize", roq_resize(&s, id, at.dims.w, at.dims.h, store, STORE));
    must("move", roq_move(&s, id, at.pos.x, at.pos.y));
    must("fill", roq_fill(&s, id, rect(0, 0, at.dims.w, at.dims.h), colour, store, STORE).answer);
    must("fill", roq_fill(&s, id, rect(10, 10, 30, 20), ~colour, store, STORE).answer);
    must("show", roq_show(&s, id));
}

/* Sends rows of the screen to a display. */
static void send_rect(uint32_t display, RoqRect r) {
    for (uint32_t y = r.pos.y; y < r.pos.y + r.dims.h; y++)
        memcpy(&shown[display][y * W + r.pos.x - display * W], &screen[y * WIDTH + r.pos.x], 4 * (size_t)r.dims.w);
    sent += 4 * (size_t)r.dims.w * r.dims.h;
    messages++;
}

/* What a redraw will write on each display is asked before it, and sent after it. */
static void draw(void) {
    RoqStale stale[DISPLAYS];
    for (uint32_t k = 0; k < DISPLAYS; k++) {
        stale[k] = roq_stale(&s, ROQ_REDRAW, rect(k * W, 0, W, H));
        must("stale", stale[k].answer);
    }
    must("redraw", roq_redraw(&s, false, WIDTH, H, store, STORE, screen, SCREEN));
    for (uint32_t k = 0; k < DISPLAYS; k++)
        if (stale[k].due) send_rect(k, stale[k].rect);
}

static bool is_shown(void) {
    for (size_t i = 0; i < SCREEN; i++)
        if (screen[i] != shown[i % WIDTH / W][i / WIDTH * W + i % W]) return false;
    return true;
}

static void say(const char *what, size_t redraws) {
    printf("%s: %zu redraws, %zu messages, %zu bytes of %zu\n", what, redraws, messages, sent, 4 * redraws * SCREEN);
    printf("the displays %s the screen\n", is_shown() ? "show" : "DO NOT SHOW");
    sent = messages = 0;
}

int main(void) {
    size_t steps = 0;
    must("start", roq_start(&s, C));
    for (uint32_t k = 0; k < DISPLAYS; k++)
        window(k, rect(k * W, 0, W, H), 0x203040 * (k + 1));
    window(PANEL, rect(0, 60, PW, PH), 0xcdd4dc);
    draw();
    say("at the start", 1);
    for (uint32_t x = STEP; x <= WIDTH - PW; x += STEP, steps++) {
        must("drag", roq_drag(&s, PANEL, x, 60 + x / STEP % 4));
        draw();
    }
    say("the panel is dragged", steps);
    must("fill", roq_fill(&s, PANEL, rect(60, 40, 30, 20), 0x3cbe5a, store, STORE).answer);
    must("mark", roq_mark(&s, PANEL));
    draw();
    say("a button is pressed", 1);
    draw();
    say("nothing has changed", 1);
    return 0;
}
