/* Makes each exported call once in a fixed scene, each from a function of its own, so that bench/instructions.py finds
 * the call's instructions in what callgrind wrote. A call that is refused ends it. */
#include "roqshyn.h"

#include <stdio.h>
#include <stdlib.h>

/* What the archive calls, by the processor's own instructions: so a count depends neither on the C library, which
 * chooses among its own by the processor, nor on the C compiler. Callgrind counts eight bytes as one instruction. */
__asm__(".text\n"
        ".globl memcpy, memmove, memset\n"
        ".type memcpy, @function\n"
        ".type memmove, @function\n"
        ".type memset, @function\n"
        "memmove:\n"
        "  mov %rdi, %rax\n"
        "  sub %rsi, %rax\n"
        "  cmp %rdx, %rax\n"
        "  jae memcpy\n"
        /* The target begins in the source: from the end on. */
        "  mov %rdi, %rax\n"
        "  lea -1(%rsi,%rdx), %rsi\n"
        "  lea -1(%rdi,%rdx), %rdi\n"
        "  mov %edx, %ecx\n"
        "  and $7, %ecx\n"
        "  std\n"
        "  rep movsb\n"
        "  sub $7, %rsi\n"
        "  sub $7, %rdi\n"
        "  mov %rdx, %rcx\n"
        "  shr $3, %rcx\n"
        "  rep movsq\n"
        "  cld\n"
        "  ret\n"
        ".size memmove, . - memmove\n"
        "memcpy:\n"
        "  mov %rdi, %rax\n"
        "  mov %rdx, %rcx\n"
        "  shr $3, %rcx\n"
        "  rep movsq\n"
        "  mov %edx, %ecx\n"
        "  and $7, %ecx\n"
        "  rep movsb\n"
        "  ret\n"
        ".size memcpy, . - memcpy\n"
        "memset:\n"
        "  mov %rdi, %r8\n"
        "  movzbl %sil, %eax\n"
        "  movabs $0x0101010101010101, %rcx\n"
        "  imul %rcx, %rax\n"
        "  mov %rdx, %rcx\n"
        "  shr $3, %rcx\n"
        "  rep stosq\n"
        "  mov %edx, %ecx\n"
        "  and $7, %ecx\n"
        "  rep stosb\n"
        "  mov %r8, %rax\n"
        "  ret\n"
        ".size memset, . - memset\n");

enum { WIDTH = 800, HEIGHT = 480, C = WIDTH * HEIGHT, ROOM = 16 * C, LIST = 1984 };

static RoqSession session;
static uint32_t store[ROOM], screen[C], list[LIST], points[64], data[5000], times[4096];
static uint8_t sheet[2048];
static size_t sheet_len;
static RoqSession *const s = &session;
static const RoqLook twice = {17.75, 9.25, 2, false};
static const RoqRect area = {{10, 20}, {8, 8}}, other = {{12, 14}, {3, 30}}, whole = {{0, 0}, {WIDTH, HEIGHT}}, one = {{0, 0}, {1, 1}};
static const RoqRect little = {{50, 40}, {16, 16}}, button = {{50, 40}, {100, 50}};
static const RoqPos point = {11, 21};
/* On the lowest window of the cascade, so that every window is looked at. */
static const RoqEvent key = {0, 0, 65, 0, 0, ROQ_KEY_DOWN, 0, 0}, press = {5, 5, 0, 0, 0, ROQ_MOUSE_DOWN, 1, 0},
                      move = {6, 6, 0, 0, 0, ROQ_MOUSE_MOVE, 0, 0}, release = {7, 7, 0, 0, 0, ROQ_MOUSE_UP, 1, 0};

static RoqRect rect(uint32_t x, uint32_t y, uint32_t w, uint32_t h) {
    return (RoqRect){{x, y}, {w, h}};
}

/* 16 windows, each at its place, painted, and drawn. */
static void windows(uint32_t c, RoqRect (*place)(uint32_t)) {
    roq_start(s, c);
    for (uint32_t k = 0; k < 16; k++) {
        RoqRect at = place(k);
        roq_create(s);
        roq_resize(s, k, at.dims.w, at.dims.h, store, 16 * (size_t)c);
        roq_pop(s, k);
        roq_move(s, k, at.pos.x, at.pos.y);
        roq_fill(s, k, rect(0, 0, at.dims.w, at.dims.h), 0x203040 + 0xf0b07 * k, store, 16 * (size_t)c);
        roq_show(s, k);
    }
    roq_redraw(s, true, WIDTH, HEIGHT, store, 16 * (size_t)c, screen, C);
}

/* Each reaches from its own corner to the right and bottom edge. */
static RoqRect of_cascade(uint32_t k) {
    return rect(25 * k, 15 * k, WIDTH - 25 * k, HEIGHT - 15 * k);
}
static void cascade(void) {
    windows(C, of_cascade);
}

/* A plan, and over it bars from edge to edge that cross each other: the deepest search. */
static RoqRect of_crossing(uint32_t k) {
    uint32_t at = 20 + (k - 1) / 2 * 50;
    if (k == 0)
        return rect(0, 0, WIDTH, HEIGHT);
    return k % 2 ? rect(0, at, WIDTH, 20) : rect(at, 0, 20, HEIGHT);
}
static void crossing(void) {
    windows(C, of_crossing);
}
static void written(void) {
    crossing();
    sheet_len = roq_sheet(s, 0, sheet, sizeof sheet).count;
}

/* Eight displays side by side, the last of them still to be added, and two windows for each, of which one may lie below
 * all displays. C is small, so that what a new size clears is not all of the count. */
enum { SIDE = 20, SMALL = SIDE * SIDE };
static RoqRect of_displays(uint32_t k) {
    return k < 8 ? rect(SIDE * k, 0, 10, 10) : rect(SIDE * (k - 8), k % 2 ? 30 : 5, 10, 10);
}
static void displays(void) {
    windows(SMALL, of_displays);
    for (uint32_t k = 0; k < 7; k++)
        roq_add_display(s, rect(SIDE * k, 0, SIDE, SIDE));
}
static void maximised(void) {
    displays();
    roq_add_display(s, rect(SIDE * 7, 0, SIDE, SIDE));
    for (uint32_t k = 0; k < 8; k++)
        roq_maximise(s, k, store, 16 * SMALL), roq_pop(s, k);
}

static void hidden(void) {
    cascade();
    roq_hide(s, 3);
}
static void dropped(void) {
    cascade();
    roq_drop(s, 3);
}
/* The press is remembered, and the queue full but for one event. */
static void pressed(void) {
    cascade();
    for (int k = 0; k < 15; k++)
        roq_route(s, press);
}
/* 16 events wait. */
static void queued(void) {
    pressed();
    roq_route(s, press);
}
/* The highest window's button is to be drawn. */
static void painted(void) {
    cascade();
    roq_fill(s, 15, button, 7, store, ROOM);
    roq_mark(s, 15);
}
static void dimmed(void) {
    cascade();
    roq_dim(s, true);
}
static void walked(void) {
    cascade();
    roq_begin(s, true);
}
static void none(void) {}

/* ROW(function, what, scene, call): where a function has one row alone, `what` is nothing. */
#define ROWS(ROW)                                                                                          \
    ROW(roq_start, , none, roq_start(s, C))                                                                \
    ROW(roq_create, , dropped, roq_create(s).answer)                                                       \
    ROW(roq_show, , hidden, roq_show(s, 3))                                                                \
    ROW(roq_raise, , cascade, roq_raise(s, 3))                                                             \
    ROW(roq_hide, , cascade, roq_hide(s, 3))                                                               \
    ROW(roq_drop, , cascade, roq_drop(s, 3))                                                               \
    ROW(roq_mark, , cascade, roq_mark(s, 3))                                                               \
    ROW(roq_move, , cascade, roq_move(s, 3, 5, 5))                                                         \
    ROW(roq_drag, _over_3, cascade, roq_drag(s, 3, 5, 5))                                                  \
    ROW(roq_drag, _over_15, cascade, roq_drag(s, 15, 5, 5))                                                \
    ROW(roq_set_layer, , cascade, roq_set_layer(s, 3, 1))                                                  \
    ROW(roq_resize, , displays, roq_resize(s, 3, SIDE, 5, store, 16 * SMALL))                              \
    ROW(roq_add_display, , displays, roq_add_display(s, rect(SIDE * 7, 0, SIDE, SIDE)))                    \
    ROW(roq_display_at, , maximised, roq_display_at(s, 90, 90).answer)                                     \
    ROW(roq_maximise, , displays, roq_maximise(s, 3, store, 16 * SMALL))                                   \
    ROW(roq_update_dims, , maximised, roq_update_dims(s, store, 16 * SMALL))                               \
    ROW(roq_fill, _16_by_16, cascade, roq_fill(s, 15, little, 7, store, ROOM).answer)                      \
    ROW(roq_fill, _100_by_50, cascade, roq_fill(s, 15, button, 7, store, ROOM).answer)                     \
    ROW(roq_blit, _16_by_16, cascade, roq_blit(s, 15, little, 16, data, 256, store, ROOM).answer)          \
    ROW(roq_blit, _100_by_50, cascade, roq_blit(s, 15, button, 100, data, 5000, store, ROOM).answer)       \
    ROW(roq_route, _key, cascade, roq_route(s, key))                                                       \
    ROW(roq_route, _press, cascade, roq_route(s, press))                                                   \
    ROW(roq_route, _move, cascade, roq_route(s, move))                                                     \
    ROW(roq_route, _release, pressed, roq_route(s, release))                                               \
    ROW(roq_route_to, _key, cascade, roq_route_to(s, key).answer)                                          \
    ROW(roq_route_to, _press, cascade, roq_route_to(s, press).answer)                                      \
    ROW(roq_route_to, _move, cascade, roq_route_to(s, move).answer)                                        \
    ROW(roq_route_to, _release, pressed, roq_route_to(s, release).answer)                                  \
    ROW(roq_pop, , queued, roq_pop(s, 0).answer)                                                           \
    ROW(roq_waiting, , queued, roq_waiting(s) == 0)                                                        \
    ROW(roq_redraw, _nothing, cascade, roq_redraw(s, false, WIDTH, HEIGHT, store, ROOM, screen, C))        \
    ROW(roq_redraw, _button, painted, roq_redraw(s, false, WIDTH, HEIGHT, store, ROOM, screen, C))         \
    ROW(roq_redraw, _full, cascade, roq_redraw(s, true, WIDTH, HEIGHT, store, ROOM, screen, C))            \
    ROW(roq_redraw, _crossing, crossing, roq_redraw(s, true, WIDTH, HEIGHT, store, ROOM, screen, C))       \
    ROW(roq_redraw, _1_by_1, crossing, roq_redraw(s, true, 1, 1, store, ROOM, screen, 1))                  \
    ROW(roq_redraw, _dimmed, dimmed, roq_redraw(s, true, WIDTH, HEIGHT, store, ROOM, screen, C))           \
    ROW(roq_begin, , cascade, roq_begin(s, true))                                                          \
    ROW(roq_portion, , walked, roq_portion(s, WIDTH, HEIGHT, store, ROOM, screen, C))                      \
    ROW(roq_dim, , cascade, roq_dim(s, true))                                                              \
    ROW(roq_stale, _1_by_1, crossing, roq_stale(s, ROQ_REDRAW_FORCED, one).answer)                         \
    ROW(roq_stale, _nothing, cascade, roq_stale(s, ROQ_REDRAW, whole).answer)                              \
    ROW(roq_stale, _button, painted, roq_stale(s, ROQ_REDRAW, whole).answer)                               \
    ROW(roq_stale, _full, cascade, roq_stale(s, ROQ_REDRAW_FORCED, whole).answer)                          \
    ROW(roq_stale, _crossing, crossing, roq_stale(s, ROQ_REDRAW_FORCED, whole).answer)                     \
    ROW(roq_stale, _portion, walked, roq_stale(s, ROQ_PORTION, whole).answer)                              \
    ROW(roq_visible, , crossing, roq_visible(s, 0, list, LIST).answer)                                     \
    ROW(roq_share, , crossing, roq_share(s, 0).answer)                                                     \
    ROW(roq_hits, , cascade, roq_hits(s, points, 64, list, 96))                                            \
    ROW(roq_look, , cascade, roq_look(s, 0, twice, 100, 50, store, ROOM, screen, 5000))                    \
    ROW(roq_sheet, , crossing, roq_sheet(s, 0, sheet, sizeof sheet).answer)                                \
    ROW(roq_focus, , none, roq_focus(s) == 16)                                                             \
    ROW(roq_rect_of, , cascade, roq_rect_of(s, 3).answer)                                                  \
    ROW(roq_window, , cascade, roq_window(s, 3).answer)                                                    \
    ROW(roq_state, , cascade, roq_state(s).c != C)                                                         \
    ROW(roq_contains, , none, roq_contains(area, point).answer)                                            \
    ROW(roq_contains_rect, , none, roq_contains_rect(area, other).answer)                                  \
    ROW(roq_within, , none, roq_within(area, 100, 100).answer)                                             \
    ROW(roq_intersect, , none, roq_intersect(area, other).answer)                                          \
    ROW(roq_union, , none, roq_union(area, other).answer)                                                  \
    ROW(roq_not_intersect, , none, roq_not_intersect(area, other).answer)                                  \
    ROW(roq_scanline, , none, roq_scanline(screen, C, WIDTH, HEIGHT, 3, 2, 100).answer)                    \
    ROW(roq_fill_scanline, , none, roq_fill_scanline(screen, C, WIDTH, HEIGHT, 3, 2, 100, 7).answer)       \
    ROW(roq_set_scanline, , none, roq_set_scanline(screen, C, WIDTH, HEIGHT, 3, 2, 100, data, 100).answer) \
    ROW(roq_region, , none, roq_region(screen, C, WIDTH, 1, 2, 3, 4).answer)                               \
    ROW(roq_read_sheet, , written, roq_read_sheet(sheet, sheet_len, list, LIST).answer)                    \
    ROW(roq_busiest, , none, roq_busiest(times, 4096).answer)                                              \
    ROW(roq_version, , none, roq_version() != ROQ_VERSION)                                                 \
    ROW(roq_session_size, , none, roq_session_size() != sizeof session)

#define RUN(function, what, scene, call) \
    __attribute__((noinline)) static uint32_t row_##function##what(void) { return call; }
ROWS(RUN)

static void tell(const char *name, void (*scene)(void), uint32_t (*run)(void)) {
    scene();
    uint32_t answer = run();
    if (answer) {
        fprintf(stderr, "%s answers %u in its scene\n", name, (unsigned)answer);
        exit(1);
    }
}

int main(void) {
    for (uint32_t k = 0; k < 32; k++)
        points[2 * k] = 25 * (k % 16) + 2, points[2 * k + 1] = 15 * (k % 16) + 2;
    for (uint32_t k = 0; k < 5000; k++)
        data[k] = k;
    for (uint32_t k = 0; k < 4096; k++)
        times[k] = 5 * k;
#define TELL(function, what, scene, call) tell(#function #what, scene, row_##function##what);
    ROWS(TELL)
    return 0;
}
