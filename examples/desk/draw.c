/* What the windows show. What is written is marked, or it is not shown. */
#include "desk.h"

#include <stdio.h>
#include <string.h>

enum { DARK = 0x141418, PAPER = 0xcdd4dc, GREY = 0x8a929a, BLUE = 0x285a96, LIGHT = 0x4682c8, GREEN = 0x3cbe5a, AMBER = 0xf0b428 };
enum { GROUND = 0x181e26, ALARM = 0x821414, RAIL = 0x5a6470, ROUTE = 0xe6ebf0, RED = 0xdc1e1e, DEAD = 0x646c74, WHITE = 0xffffff };

static void mark(uint32_t id) {
    if (desk->fault == UNMARKED) return;
    must("mark", roq_mark(&desk->s, id));
}

static void fill(uint32_t id, uint32_t x, uint32_t y, uint32_t w, uint32_t h, uint32_t colour) {
    RoqRect area = {{x, y}, {w, h}};
    RoqAltered filled = roq_fill(&desk->s, id, area, colour, desk->store, STORE);
    must("fill", filled.answer);
    desk->altered += filled.altered;
}

/* Letters of 3 by 5 squares: an octal digit is a row. */
static void letters(uint32_t id, const char *text, uint32_t x, uint32_t y, uint32_t size, uint32_t ink) {
    static const char known[] = "0123456789ABCDEFGHILMNOPRSTUVWY+-(),>";
    static const uint16_t rows[] = {075557, 026227, 061747, 061617, 055711, 074616, 034757, 071122, 075757, 075716, 025755, 065656, 034443,
                                    065556, 074647, 074644, 034553, 055755, 072227, 044447, 057755, 065555, 075557, 075744, 065655, 034216,
                                    072222, 055557, 055552, 055577, 055222, 002720, 000700, 012221, 042224, 000024, 042124};
    for (; *text != 0; text++, x += 4 * size)
        for (uint32_t i = 0; i < 15 && *text != ' '; i++)
            if (rows[strchr(known, *text) - known] >> (14 - i) & 1) fill(id, x + i % 3 * size, y + i / 3 * size, size, size, ink);
}

static uint32_t ground(void) {
    return desk->stopped ? ALARM : GROUND;
}

/* A leg of a turnout on the first plan: straight on, or across to the other track. */
static void draw_leg(uint32_t id, bool across, uint32_t colour) {
    uint32_t n = id - W1, x = 40 + 124 * n, y = n % 2 ? 130 : 70;
    if (!across) fill(PLAN, x, y, 54, 6, colour);
    for (uint32_t i = 0; across && i < 13; i++) fill(PLAN, x + 4 * i, n % 2 ? y - 5 * i : y + 5 * i, 6, 6, colour);
}

void draw_turnout(uint32_t id) {
    draw_leg(id, !desk->reverse[id], RAIL);
    draw_leg(id, desk->reverse[id], ROUTE);
    mark(PLAN);
}

/* A signal has a green, an amber and a red lamp. Its aspect is one of them, or amber and red. */
static void draw_signal(uint32_t plan, uint32_t x, unsigned aspect) {
    static const uint32_t lamps[] = {GREEN, AMBER, RED};
    static const unsigned lit[] = {4, 6, 2, 1}; /* bit i: lamp i is lit */
    fill(plan, x, 180, 16, 40, DARK);
    for (uint32_t i = 0; i < 3; i++) fill(plan, x + 3, 183 + 12 * i, 10, 10, lit[aspect] >> i & 1 ? lamps[i] : RAIL);
}

/* Aspects change by themselves; while the desk is stopped all signals are red. */
void draw_signals(void) {
    for (uint32_t k = 0; k < desk->displays * SIGNALS; k++)
        draw_signal(k / SIGNALS, 320 + 160 * (k % SIGNALS), desk->stopped ? 0 : (desk->now / ASPECT + k) % 4);
    for (uint32_t plan = 0; plan < desk->displays; plan++) mark(plan);
}

/* The last press, the events of the busiest second, the pixels that were altered and the bytes that were sent. */
void draw_status(void) {
    char text[120];
    RoqSecond busiest = roq_busiest(desk->times, desk->events);
    must("busiest", busiest.answer);
    snprintf(text, sizeof text, "%-30s %u EVENTS IN A SECOND  %zu ALTERED  %zu BYTES  NOTCH %u", desk->pressed, (unsigned)busiest.count,
             desk->altered, desk->sent, (unsigned)desk->throttle);
    text[98] = 0;
    fill(PLAN, 0, 0, W, 16, ground());
    letters(PLAN, text, 4, 3, 2, ROUTE);
    mark(PLAN);
    desk->altered = desk->sent = 0;
}

/* While the desk is stopped the ground of all displays is red. */
static void draw_plan(uint32_t plan) {
    fill(plan, 0, 0, W, H, ground());
    fill(plan, 0, 70, W, 6, RAIL);
    fill(plan, 0, 130, W, 6, RAIL);
    if (desk->stopped) letters(plan, "STOPPED", 24, 182, 7, WHITE);
    for (uint32_t id = W1; plan == PLAN && id < LENS; id++) {
        letters(PLAN, names[id], 44 + 124 * (id - W1), (id - W1) % 2 ? 148 : 44, 3, RAIL);
        draw_turnout(id);
    }
}

/* As large as the panel is. Its paper is grey where less than half of it is in view. While the desk is stopped its
 * button is grey, since it refuses. */
void draw_panel(uint32_t id) {
    RoqDims size = rect_of(id).dims;
    uint32_t face = desk->stopped ? DEAD : is_held(id) ? WHITE : desk->reverse[id] ? AMBER : GREEN;
    fill(id, 0, 0, size.w, size.h, DARK);
    fill(id, 1, 1, size.w - 2, size.h - 2, desk->covered[id] ? GREY : PAPER);
    fill(id, 1, 1, size.w - 2, TOP, id == desk->lit ? LIGHT : BLUE);
    letters(id, names[id], 8, 6, 3, WHITE);
    fill(id, BX, BY, size.w - 2 * BX, size.h - BX - BY, DARK);
    fill(id, BX + 2, BY + 2, size.w - 2 * BX - 4, size.h - BX - BY - 4, face);
    letters(id, desk->reverse[id] ? "-" : "+", size.w / 2 - 9, BY + (size.h - BX - BY) / 2 - 15, 6, DARK);
    mark(id);
}

/* While the desk is stopped the stop blinks, white on red and red on white. Then it has a knob on the left, a place for
 * it on the right, and a bar between them. */
void draw_stop(void) {
    bool white = desk->stopped && desk->now / BLINK % 2 == 0;
    fill(STOP, 0, 0, SW, SH, AMBER);
    fill(STOP, 6, 6, SW - 12, SH - 12, white ? WHITE : RED);
    letters(STOP, "STOP", 19, desk->stopped ? 10 : 24, 5, white ? RED : WHITE);
    if (desk->stopped) {
        fill(STOP, 6, 38, SW - 12, SH - 44, DARK);
        fill(STOP, 12, 50, SW - 24, 4, RAIL);
        fill(STOP, 12, 42, 24, 20, is_held(STOP) ? WHITE : AMBER);
        fill(STOP, SW - 36, 42, 24, 20, RAIL);
        fill(STOP, SW - 34, 44, 20, 16, DARK);
    }
    mark(STOP);
}

/* The lens shows the plan under its middle, magnified. It is marked only where that is another picture than before. */
void draw_lens(void) {
    static uint32_t glass[(LW - 2 * EDGE) * (LH - 2 * EDGE)];
    enum { GW = LW - 2 * EDGE, GH = LH - 2 * EDGE };
    RoqRect at = rect_of(LENS), inside = {{EDGE, EDGE}, {GW, GH}};
    uint32_t x = at.pos.x + LW / 2, y = at.pos.y + LH / 2, plan = x / W;
    RoqLook look = {(x % W) - GW / 2 / desk->factor, y - GH / 2 / desk->factor, desk->factor, false};
    look.x = look.x < 0 ? 0 : look.x, look.y = look.y < 0 ? 0 : look.y;
    if (!desk->lens) return;
    must("look", roq_look(&desk->s, plan, look, GW, GH, desk->store, STORE, glass, GW * GH));
    RoqAltered drawn = roq_blit(&desk->s, LENS, inside, GW, glass, GW * GH, desk->store, STORE);
    must("blit", drawn.answer);
    desk->altered += drawn.altered;
    if (drawn.altered != 0) mark(LENS);
}

void draw_all(void) {
    for (uint32_t plan = 0; plan < desk->displays; plan++) draw_plan(plan);
    for (uint32_t id = W1; id < LENS; id++) draw_panel(id);
    fill(LENS, 0, 0, LW, LH, AMBER);
    mark(LENS);
    draw_signals();
    draw_status();
    draw_stop();
}
