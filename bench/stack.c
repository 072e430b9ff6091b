/* The bytes of stack that each exported call takes, as lines `call bytes`: it runs alone on a stack of its own, whose bytes were painted. The
 * scene is the deepest search: 16 windows, the plan below 15 bars that cross each other. */
#define _XOPEN_SOURCE 700
#include "roqshyn.h"

#include <stdio.h>
#include <string.h>
#include <ucontext.h>

enum { WIDTH = 400, HEIGHT = 400, C = WIDTH * HEIGHT, ROOM = 32 * 1024 };
#define PAINT UINT64_C(0x5a5aa5a5c3c33c3c)
static uint64_t stack[ROOM];
static ucontext_t here, there;

static RoqSession session;
static uint32_t store[16 * C], screen[C], list[1984], data[64];
static uint8_t sheet[2048];
static size_t sheet_len;
static RoqSession *const s = &session;
static const RoqLook fitting = {0, 0, 0, true};
static const RoqRect area = {{10, 20}, {8, 8}}, other = {{12, 14}, {3, 30}}, whole = {{0, 0}, {WIDTH, HEIGHT}};
static const RoqPos point = {11, 21};
static const RoqEvent press = {25, 25, 0, 0, 0, ROQ_MOUSE_DOWN, 1, 0};

/* One function for each call, so that nothing else is on the stack. */
#define CALLS(CALL)                                                                    \
    CALL(roq_start, (s, C))                                                            \
    CALL(roq_create, (s))                                                              \
    CALL(roq_show, (s, 3))                                                             \
    CALL(roq_raise, (s, 3))                                                            \
    CALL(roq_hide, (s, 3))                                                             \
    CALL(roq_drop, (s, 3))                                                             \
    CALL(roq_mark, (s, 3))                                                             \
    CALL(roq_move, (s, 3, 5, 5))                                                       \
    CALL(roq_drag, (s, 15, 5, 5))                                                      \
    CALL(roq_set_layer, (s, 3, 1))                                                     \
    CALL(roq_resize, (s, 0, 300, 300, store, 16 * C))                                  \
    CALL(roq_add_display, (s, area))                                                   \
    CALL(roq_display_at, (s, 999, 999))                                                \
    CALL(roq_maximise, (s, 0, store, 16 * C))                                          \
    CALL(roq_update_dims, (s, store, 16 * C))                                          \
    CALL(roq_fill, (s, 0, area, 7, store, 16 * C))                                     \
    CALL(roq_blit, (s, 0, area, 8, data, 64, store, 16 * C))                           \
    CALL(roq_route, (s, press))                                                        \
    CALL(roq_route_to, (s, press))                                                     \
    CALL(roq_pop, (s, 0))                                                              \
    CALL(roq_waiting, (s))                                                             \
    CALL(roq_redraw, (s, true, WIDTH, HEIGHT, store, 16 * C, screen, C))               \
    CALL(roq_begin, (s, true))                                                         \
    CALL(roq_portion, (s, WIDTH, HEIGHT, store, 16 * C, screen, C))                    \
    CALL(roq_dim, (s, false))                                                          \
    CALL(roq_stale, (s, ROQ_PORTION, whole))                                           \
    CALL(roq_visible, (s, 0, list, 1984))                                              \
    CALL(roq_share, (s, 0))                                                            \
    CALL(roq_hits, (s, data, 64, list, 1984))                                          \
    CALL(roq_look, (s, 0, fitting, WIDTH, HEIGHT, store, 16 * C, screen, C))           \
    CALL(roq_sheet, (s, 0, sheet, 2048))                                               \
    CALL(roq_focus, (s))                                                               \
    CALL(roq_rect_of, (s, 0))                                                          \
    CALL(roq_window, (s, 0))                                                           \
    CALL(roq_state, (s))                                                               \
    CALL(roq_contains, (area, point))                                                  \
    CALL(roq_contains_rect, (area, other))                                             \
    CALL(roq_within, (area, 100, 100))                                                 \
    CALL(roq_intersect, (area, other))                                                 \
    CALL(roq_union, (area, other))                                                     \
    CALL(roq_not_intersect, (area, other))                                             \
    CALL(roq_scanline, (screen, C, WIDTH, HEIGHT, 3, 2, 100))                          \
    CALL(roq_fill_scanline, (screen, C, WIDTH, HEIGHT, 3, 2, 100, 7))                  \
    CALL(roq_set_scanline, (screen, C, WIDTH, HEIGHT, 3, 2, 100, data, 64))            \
    CALL(roq_region, (screen, C, WIDTH, 1, 2, 3, 4))                                   \
    CALL(roq_read_sheet, (sheet, sheet_len, list, 1984))                               \
    CALL(roq_busiest, (data, 64))                                                      \
    CALL(roq_version, ())                                                              \
    CALL(roq_session_size, ())

static void nothing(void) {}
#define RUN(name, arguments) static void run_##name(void) { (void)name arguments; }
CALLS(RUN)

/* The windows on a display as large as the plan, which is maximised; all have events, the plan damage and the next portion; dimming is on; the plan's
 * sheet is written. The last id is left unused where a create is to find one. */
static void scene(int windows) {
    memset(&session, 0, sizeof session);
    roq_start(s, C);
    for (int k = 0; k < windows; k++) {
        uint32_t at = 20 + (uint32_t)((k - 1) / 2) * 50;
        roq_create(s);
        if (k == 0)
            roq_resize(s, 0, WIDTH, HEIGHT, store, 16 * C);
        else if (k % 2)
            roq_resize(s, (uint32_t)k, WIDTH, 20, store, 16 * C), roq_move(s, (uint32_t)k, 0, at);
        else
            roq_resize(s, (uint32_t)k, 20, HEIGHT, store, 16 * C), roq_move(s, (uint32_t)k, at, 0);
        roq_show(s, (uint32_t)k);
    }
    roq_add_display(s, whole);
    roq_maximise(s, 0, store, 16 * C);
    roq_fill(s, 0, area, 6, store, 16 * C);
    roq_fill(s, 0, other, 6, store, 16 * C);
    roq_dim(s, true);
    roq_begin(s, true);
    sheet_len = roq_sheet(s, 0, sheet, 2048).count;
}

/* How far down the paint is gone. */
static size_t depth(void (*run)(void)) {
    for (size_t word = 0; word < ROOM; word++)
        stack[word] = PAINT;
    getcontext(&there);
    there.uc_stack.ss_sp = stack;
    there.uc_stack.ss_size = sizeof stack;
    there.uc_link = &here;
    makecontext(&there, run, 0);
    swapcontext(&here, &there);
    size_t painted = 0;
    while (painted < ROOM && stack[painted] == PAINT)
        painted++;
    return (ROOM - painted) * sizeof stack[0];
}

static void tell(const char *name, void (*run)(void)) {
    scene(strcmp(name, "roq_create") ? 16 : 15);
    /* A drag repairs windows where no full redraw is owed and no walk is on. */
    if (!strcmp(name, "roq_drag"))
        roq_redraw(s, false, WIDTH, HEIGHT, store, 16 * C, screen, C);
    /* What stands on the stack without a call. */
    size_t idle = depth(nothing);
    printf("%s %zu\n", name, depth(run) - idle);
}

int main(void) {
#define TELL(name, arguments) tell(#name, run_##name);
    CALLS(TELL)
    return 0;
}
