/* One session on eight displays side by side, 6,400 by 480: a plan is maximised on each of them, and over it lies a
 * turnout panel; panel 5 is maximised too, and panel 8 is dragged off to the right, where nobody sees it. The first
 * display is switched on last. Until then its plan has no pixels. When it is added and update_dims is called, the plan
 * takes it, and panel 8 comes back.
 *
 * displays [PICTURE.ppm] writes how many pixels the drag had drawn, where windows are before and after the last display
 * is there, and a picture of both screens, every fourth pixel. */
#include "roqshyn.h"

#include <stdio.h>
#include <stdlib.h>
#include <string.h>

enum { W = 800, H = 480, DISPLAYS = ROQ_DISPLAYS, WIDTH = DISPLAYS * W, SCREEN = WIDTH * H, C = W * H, STORE = ROQ_WINDOWS * C };
enum { PW = 300, PH = 200, STEPS = 16 };         /* a panel, and the steps in which one is dragged */
enum { STEP = 4, GAP = 12 };                     /* of the picture: one pixel of so many, and rows between both screens */
enum { DARK = 0x141418, PAPER = 0xcdd4dc, BLUE = 0x285a96, GREEN = 0x3cbe5a, AMBER = 0xf0b428, RED = 0xdc3c32, WHITE = 0xffffff };
enum { GROUND = 0x181e26, RAIL = 0x96a0aa };

static RoqSession s;
static uint32_t store[STORE], screen[SCREEN], before[SCREEN];

/* Every call here is one that the library takes: another answer is a mistake of ours. */
static void must(const char *call, uint32_t answer) {
    if (answer == ROQ_OK) return;
    fprintf(stderr, "displays: %s was answered by %u\n", call, (unsigned)answer);
    exit(1);
}

static RoqRect rect(uint32_t x, uint32_t y, uint32_t w, uint32_t h) {
    RoqRect r = {{x, y}, {w, h}};
    return r;
}

/* ---- Drawing: windows 0 to 7 are plans, 8 to 15 panels, in the order of their displays ---- */

static void fill(uint32_t id, uint32_t x, uint32_t y, uint32_t w, uint32_t h, uint32_t colour) {
    must("fill", roq_fill(&s, id, rect(x, y, w, h), colour, store, STORE).answer);
}

/* A digit of 3 by 5 squares: an octal digit is a row. */
static void digit(uint32_t id, uint32_t value, uint32_t x, uint32_t y, uint32_t size, uint32_t ink) {
    static const uint16_t rows[] = {026227, 061747, 061617, 055711, 074616, 034757, 071122, 075757};
    for (uint32_t i = 0; i < 15; i++)
        if (rows[value] >> (14 - i) & 1) fill(id, x + i % 3 * size, y + i / 3 * size, size, size, ink);
}

/* A frame, two tracks that go on from display to display, and a crossover between them. */
static void paint_plan(uint32_t id) {
    fill(id, 0, 0, W, H, DARK);
    fill(id, 4, 4, W - 8, H - 8, GROUND);
    fill(id, 0, 320, W, 12, RAIL);
    fill(id, 0, 400, W, 12, RAIL);
    for (uint32_t k = 0; k < 18; k++)
        fill(id, 500 + 8 * k, 324 + 4 * k, 16, 12, RAIL);
    fill(id, 700, 288, 20, 20, id % 2 ? GREEN : RED);
    digit(id, id, 24, 24, 16, RAIL);
}

/* As large as the panel is, with its buttons in the middle. */
static void paint_panel(uint32_t id) {
    RoqDims size = roq_rect_of(&s, id).rect.dims;
    uint32_t x = size.w / 2 - 120, y = size.h / 2 - 48;
    fill(id, 0, 0, size.w, size.h, DARK);
    fill(id, 4, 4, size.w - 8, size.h - 8, PAPER);
    fill(id, 4, 4, size.w - 8, 36, BLUE);
    digit(id, id - DISPLAYS, 12, 8, 4, WHITE);
    fill(id, x, y, 108, 112, id % 3 ? GREEN : WHITE);
    fill(id, x + 132, y, 108, 112, id % 3 ? WHITE : AMBER);
}

/* A window that has another size paints itself, and is marked, or it would not be shown. */
static void hear(void) {
    for (uint32_t id = 0; id < ROQ_WINDOWS; id++)
        while (roq_pop(&s, id).event.kind == ROQ_RESIZE) {
            if (id < DISPLAYS) paint_plan(id);
            else paint_panel(id);
            must("mark", roq_mark(&s, id));
        }
}

/* ---- The session ---- */

static void display(uint32_t k) {
    must("add_display", roq_add_display(&s, rect(k * W, 0, W, H)));
}

static void plan(uint32_t k) {
    must("create", roq_create(&s).answer);
    must("move", roq_move(&s, k, k * W + 100, 50));
    must("maximise", roq_maximise(&s, k, store, STORE));
    must("show", roq_show(&s, k));
}

static void panel(uint32_t k) {
    must("create", roq_create(&s).answer);
    must("resize", roq_resize(&s, DISPLAYS + k, PW, PH, store, STORE));
    must("move", roq_move(&s, DISPLAYS + k, k * W + 100, 100));
    must("show", roq_show(&s, DISPLAYS + k));
}

static void draw(void) {
    hear();
    must("redraw", roq_redraw(&s, false, WIDTH, H, store, STORE, screen, SCREEN));
}

/* How many pixels a redraw writes. Nothing here is painted in 0, so on a dark screen they are those that are not 0; the
 * others then get back what they had. */
static unsigned drawn(void) {
    unsigned count = 0;
    memcpy(before, screen, sizeof before);
    memset(screen, 0, sizeof screen);
    draw();
    for (size_t i = 0; i < SCREEN; i++) {
        if (screen[i] != 0) count++;
        else screen[i] = before[i];
    }
    return count;
}

/* By finger, in steps, each with its redraw: the panel's old and new place are drawn. */
static void drag_off(uint32_t id) {
    unsigned count = 0;
    RoqPos from = roq_rect_of(&s, id).rect.pos;
    for (uint32_t k = 1; k <= STEPS; k++) {
        must("drag", roq_drag(&s, id, from.x + W * k / STEPS, from.y + PH * k / STEPS));
        count += drawn();
    }
    printf("%d drags off the last display: %u pixels are drawn", STEPS, count);
    must("move", roq_move(&s, id, from.x + W, from.y + PH));
    printf(", and %u after one move\n", drawn());
}

/* ---- What is told ---- */

static void tell_window(const char *what, uint32_t id) {
    RoqRect at = roq_rect_of(&s, id).rect;
    printf("  %s at (%u,%u), %u by %u\n", what, (unsigned)at.pos.x, (unsigned)at.pos.y, (unsigned)at.dims.w, (unsigned)at.dims.h);
}

/* Nothing here is painted in 0. */
static void tell(const char *when) {
    unsigned dark = 0;
    for (size_t i = 0; i < SCREEN; i++)
        dark += screen[i] == 0;
    printf("%s: %u pixels of the screen are dark\n", when, dark);
    tell_window("plan 1", 0);
    tell_window("panel 1", DISPLAYS);
    tell_window("panel 5", DISPLAYS + 4);
    tell_window("panel 8", DISPLAYS + 7);
}

static void put(FILE *file, const uint32_t *of) {
    for (uint32_t y = 0; y < H; y += STEP)
        for (uint32_t x = 0; x < WIDTH; x += STEP) {
            uint32_t pixel = of[y * WIDTH + x];
            unsigned char rgb[3] = {(unsigned char)(pixel >> 16), (unsigned char)(pixel >> 8), (unsigned char)pixel};
            fwrite(rgb, 1, 3, file);
        }
}

/* The one screen above the other. */
static void picture(const char *name) {
    static const unsigned char gap[3 * GAP * WIDTH / STEP];
    FILE *file = fopen(name, "wb");
    if (file == NULL) must("fopen", 1);
    fprintf(file, "P6\n%d %d\n255\n", WIDTH / STEP, 2 * H / STEP + GAP);
    put(file, before);
    for (size_t i = 0; i < sizeof gap; i++)
        fputc(255, file);
    put(file, screen);
    if (fclose(file) != 0) must("fclose", 1);
}

int main(int count, char **words) {
    must("start", roq_start(&s, C));
    for (uint32_t k = 1; k < DISPLAYS; k++)
        display(k);
    for (uint32_t k = 0; k < DISPLAYS; k++)
        plan(k);
    for (uint32_t k = 0; k < DISPLAYS; k++)
        panel(k);
    must("maximise", roq_maximise(&s, DISPLAYS + 4, store, STORE));
    draw();
    drag_off(DISPLAYS + 7);
    tell("seven displays");
    memcpy(before, screen, sizeof before);

    display(0);
    must("update_dims", roq_update_dims(&s, store, STORE));
    draw();
    tell("eight displays");
    if (count > 1) picture(words[1]);
    return 0;
}
