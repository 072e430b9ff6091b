/* A yard throat, magnified fourfold. Window 0 is a plan with a ladder of turnouts; window 1 is a magnifier that a finger put over it, with what a
 * look shows of the turnouts under it. With a file's name it writes the screen there as a picture (PPM). */
#include "roqshyn.h"

#include <stdio.h>
#include <stdlib.h>

enum { WIDTH = 480, HEIGHT = 240, C = WIDTH * HEIGHT, STORE = ROQ_WINDOWS * C, PLAN = 0, GLASS = 1 };
/* The magnifier, its frame, and what it shows. */
enum { FRAME = 4, W = 240, H = 160 };
enum { GROUND = 0x181e26, TRACK = 0x96a0aa, POINTS = 0xf0b428, ROUTE = 0xffffff, TRAIN = 0xdc3c32, EDGE = 0x3c78c8 };

static RoqSession s;
static uint32_t store[STORE], screen[C], target[W * H];

static void must(uint32_t answer) {
    if (answer != ROQ_OK)
        exit((int)answer);
}

static void fill(uint32_t id, uint32_t x, uint32_t y, uint32_t w, uint32_t h, uint32_t colour) {
    RoqRect area = {{x, y}, {w, h}};
    must(roq_fill(&s, id, area, colour, store, STORE).answer);
}

static void window(uint32_t id, uint32_t x, uint32_t y, uint32_t w, uint32_t h, uint32_t colour) {
    must(roq_create(&s).answer);
    must(roq_resize(&s, id, w, h, store, STORE));
    fill(id, 0, 0, w, h, colour);
    must(roq_move(&s, id, x, y));
    must(roq_show(&s, id));
}

/* Tracks of two pixels, 16 apart: the throat is where the ladder leaves the main track, two pixels down and across for each step. */
static void plan(void) {
    window(PLAN, 0, 0, WIDTH, HEIGHT, GROUND);
    fill(PLAN, 0, 20, WIDTH, 2, TRACK);
    for (uint32_t track = 1; track < 8; track++) {
        uint32_t y = 20 + 16 * track, x = 24 + 16 * track;
        fill(PLAN, x, y, WIDTH - x, 2, TRACK);
        fill(PLAN, x - 1, y - 1, 4, 4, POINTS);
    }
    for (uint32_t step = 0; step < 112; step++)
        fill(PLAN, 24 + step, 20 + step, 2, 2, step < 48 ? ROUTE : TRACK);
    fill(PLAN, 0, 20, 26, 2, ROUTE);
    fill(PLAN, 72, 68, 60, 2, ROUTE);
    fill(PLAN, 110, 65, 40, 8, TRAIN);
}

/* A line around what is looked at; the look, and the rows of its target blitted into the magnifier. */
static void magnify(uint32_t x, uint32_t y) {
    RoqLook look = {x, y, 4, false};
    RoqRect inside = {{FRAME, FRAME}, {W, H}};
    fill(PLAN, x - 1, y - 1, W / 4 + 2, 1, EDGE);
    fill(PLAN, x - 1, y + H / 4, W / 4 + 2, 1, EDGE);
    fill(PLAN, x - 1, y, 1, H / 4, EDGE);
    fill(PLAN, x + W / 4, y, 1, H / 4, EDGE);
    must(roq_look(&s, PLAN, look, W, H, store, STORE, target, W * H));
    must(roq_blit(&s, GLASS, inside, W, target, W * H, store, STORE).answer);
    must(roq_mark(&s, GLASS));
}

/* Whether each pixel of the plan under the look is four by four in the target. */
static bool is_fourfold(uint32_t x, uint32_t y) {
    for (uint32_t j = 0; j < H; j++)
        for (uint32_t i = 0; i < W; i++)
            if (target[j * W + i] != store[PLAN * C + (y + j / 4) * WIDTH + x + i / 4])
                return false;
    return true;
}

static void picture(const char *name) {
    FILE *file = fopen(name, "wb");
    if (file == NULL)
        exit(1);
    fprintf(file, "P6\n%d %d\n255\n", WIDTH, HEIGHT);
    for (int k = 0; k < C; k++) {
        uint8_t pixel[3] = {(uint8_t)(screen[k] >> 16), (uint8_t)(screen[k] >> 8), (uint8_t)screen[k]};
        fwrite(pixel, 1, 3, file);
    }
    fclose(file);
}

int main(int words, char **word) {
    must(roq_start(&s, C));
    plan();
    window(GLASS, 216, 60, W + 2 * FRAME, H + 2 * FRAME, EDGE);
    magnify(66, 52);
    must(roq_redraw(&s, true, WIDTH, HEIGHT, store, STORE, screen, C));
    if (words > 1)
        picture(word[1]);
    bool fourfold = is_fourfold(66, 52);
    printf("the magnifier %s the throat fourfold\n", fourfold ? "shows" : "does not show");
    return !fourfold;
}
