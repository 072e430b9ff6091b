#include "roqshyn.h"
#include <stdio.h>

enum { W = 32, H = 5, C = W * H, STORE = ROQ_WINDOWS * C, BLUE = 0x285a96, AMBER = 0xf0b428 };
static RoqSession s;
static uint32_t store[STORE], screen[C];

int main(void) {
    RoqRect all = {{0, 0}, {W, H}}, button = {{3, 1}, {10, 3}};
    RoqEvent press = {.kind = ROQ_MOUSE_DOWN, .x = 5, .y = 2, .button = 1};
    uint32_t failed = roq_start(&s, C); /* ROQ_OK, or what was wrong, as of every call */
    uint32_t panel = roq_create(&s).id; /* no window's if refused: the next call says so */
    failed |= roq_resize(&s, panel, W, H, store, STORE);
    failed |= roq_show(&s, panel);
    failed |= roq_fill(&s, panel, all, BLUE, store, STORE).answer;
    failed |= roq_fill(&s, panel, button, AMBER, store, STORE).answer;
    failed |= roq_mark(&s, panel); /* after the last write */
    failed |= roq_redraw(&s, false, W, H, store, STORE, screen, C);
    failed |= roq_route(&s, press);
    failed |= screen[0] != BLUE;
    for (int i = 0; i < C; i++)
        printf("%c%s", screen[i] == AMBER ? '#' : '.', i % W == W - 1 ? "\n" : "");
    for (RoqPopped next = roq_pop(&s, panel); next.answer == ROQ_OK; next = roq_pop(&s, panel))
        if (next.event.kind == ROQ_MOUSE_DOWN)
            printf("pressed at %u, %u\n", (unsigned)next.event.x, (unsigned)next.event.y);
    return failed != 0;
}
