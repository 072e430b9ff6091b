/* The duties of a caller by their numbers in docs/SAFETY-MANUAL.md: what holds where one is kept, and what is seen
 * where it is broken, as far as that is sure. A duty whose breach cannot be detected has no function here. */
#define _GNU_SOURCE
#include "roqshyn.h"

#include <fenv.h>
#include <math.h>
#include <signal.h>
#include <stdio.h>
#include <string.h>
#include <sys/mman.h>
#include <sys/resource.h>
#include <sys/wait.h>
#include <unistd.h>
#include <xmmintrin.h>

enum { WIDTH = 16, HEIGHT = 8, C = WIDTH * HEIGHT, STORE = 16 * C, PLAN = 0, PANEL = 1, GREY = 1, GREEN = 2, RED = 3 };
static const RoqRect everything = {{0, 0}, {WIDTH, HEIGHT}};
static RoqSession s;
static uint32_t store[STORE], screen[C];
static int failed = 0;

#define EXPECT(condition)                                              \
    do {                                                               \
        if (!(condition)) {                                            \
            printf("%s is not so: %s\n", __func__, #condition);        \
            failed = 1;                                                \
        }                                                              \
    } while (0)

static uint32_t fill(RoqSession *of, uint32_t id, uint32_t colour) {
    return roq_fill(of, id, everything, colour, store, STORE).answer;
}

static uint32_t redraw(RoqSession *of, bool told) { return roq_redraw(of, told, WIDTH, HEIGHT, store, STORE, screen, C); }

static uint32_t portion(void) { return roq_portion(&s, WIDTH, HEIGHT, store, STORE, screen, C); }

static uint32_t pointer(uint8_t kind, uint32_t x, uint32_t y) {
    RoqEvent e = {x, y, 0, 0, 0, kind, 1, 0};
    return roq_route(&s, e);
}

/* A window of this size and colour at a place, shown, whose Resize is popped. */
static void window(uint32_t id, uint32_t x, uint32_t y, uint32_t w, uint32_t h, uint32_t colour) {
    uint32_t unlike = roq_create(&s).id != id || roq_resize(&s, id, w, h, store, STORE) || roq_move(&s, id, x, y);
    EXPECT(!unlike && fill(&s, id, colour) == 0 && roq_show(&s, id) == 0 && roq_pop(&s, id).event.kind == ROQ_RESIZE);
}

/* The plan, grey and as large as the screen; on it a green panel of 4 by 4 at (2,2). Both are drawn. */
static void scene(void) {
    memset(&s, 0, sizeof s);
    memset(store, 0, sizeof store);
    memset(screen, 0, sizeof screen);
    EXPECT(roq_start(&s, C) == 0);
    window(PLAN, 0, 0, WIDTH, HEIGHT, GREY);
    window(PANEL, 2, 2, 4, 4, GREEN);
    EXPECT(redraw(&s, false) == 0);
}

static uint32_t pixel(uint32_t x, uint32_t y) { return screen[y * WIDTH + x]; }

/* The signal by which a child process ends that does this; 0 where it ends by itself. */
static int ended_by(void (*deed)(void)) {
    int status = 0;
    fflush(stdout);
    pid_t child = fork();
    if (child == 0) {
        struct rlimit none = {0, 0};
        setrlimit(RLIMIT_CORE, &none);
        deed();
        _exit(0);
    }
    EXPECT(child > 0 && waitpid(child, &status, 0) == child);
    return WIFSIGNALED(status) ? WTERMSIG(status) : 0;
}

/* Kept: a start on zeros, and on a session, which ends, also where the start is refused. */
static void d1_zeros_before_start(void) {
    scene();
    EXPECT(roq_start(&s, C) == 0 && roq_rect_of(&s, PLAN).answer == 3 && roq_create(&s).id == 0);
    EXPECT(roq_start(&s, 0) == 2 && roq_rect_of(&s, PLAN).answer == 3 && roq_create(&s).id == 0);
}

/* The end of a page behind which nothing may be read or written. */
static uint32_t *end_of_page(void) {
    size_t page = (size_t)sysconf(_SC_PAGESIZE);
    char *pages = mmap(NULL, 2 * page, PROT_READ | PROT_WRITE, MAP_PRIVATE | MAP_ANONYMOUS, -1, 0);
    EXPECT(pages != MAP_FAILED && mprotect(pages + page, page, PROT_NONE) == 0);
    return (uint32_t *)(void *)(pages + page);
}

static uint32_t *lent;
static void redraw_lent(void) { roq_redraw(&s, true, WIDTH, HEIGHT, store, STORE, lent, C); }

/* Broken: a screen that is said to be a pixel longer than the memory that is there. */
static void d4_memory_is_there(void) {
    scene();
    uint32_t *end = end_of_page();
    lent = end - C;
    EXPECT(ended_by(redraw_lent) == 0);
    lent = end - C + 1;
    EXPECT(ended_by(redraw_lent) == SIGSEGV);
}

/* Broken: the screen lies in the store, at the pixels of window 8. */
static void d5_no_overlap(void) {
    scene();
    EXPECT(roq_redraw(&s, true, WIDTH, HEIGHT, store, STORE, store + 8 * C, C) == 0);
    EXPECT(store[8 * C] == GREY && store[8 * C + 2 * WIDTH + 2] == GREEN);
}

static void d7_mark_after_write(void) {
    scene();
    EXPECT(fill(&s, PANEL, RED) == 0 && redraw(&s, false) == 0 && pixel(2, 2) == GREEN);
    EXPECT(roq_mark(&s, PANEL) == 0 && redraw(&s, false) == 0 && pixel(2, 2) == RED);
}

/* Broken: a second screen, which is lent to a redraw that is not full; and a store that somebody else writes. */
static void d8_one_screen_and_store(void) {
    static uint32_t second[C];
    scene();
    EXPECT(roq_redraw(&s, false, WIDTH, HEIGHT, store, STORE, second, C) == 0 && second[0] == 0);
    EXPECT(roq_redraw(&s, true, WIDTH, HEIGHT, store, STORE, second, C) == 0 && second[0] == GREY);
    store[PLAN * C] = RED;
    EXPECT(redraw(&s, false) == 0 && pixel(0, 0) == GREY && redraw(&s, true) == 0 && pixel(0, 0) == RED);
}

/* Broken: without the plan, what a panel leaves stays on the screen. */
static void d9_a_lowest_window(void) {
    scene();
    EXPECT(roq_hide(&s, PLAN) == 0 && roq_move(&s, PANEL, 10, 2) == 0 && redraw(&s, true) == 0);
    EXPECT(pixel(10, 2) == GREEN && pixel(2, 2) == GREEN);
    EXPECT(roq_show(&s, PLAN) == 0 && roq_raise(&s, PANEL) == 0 && redraw(&s, false) == 0 && pixel(2, 2) == GREY);
}

/* A release without a press reaches the panel: whoever acts on it acts on nothing. */
static void d10_releases_after_presses(void) {
    scene();
    EXPECT(pointer(ROQ_MOUSE_UP, 3, 3) == 0 && roq_pop(&s, PANEL).event.kind == ROQ_MOUSE_UP);
    EXPECT(pointer(ROQ_MOUSE_DOWN, 3, 3) == 0 && roq_hide(&s, PANEL) == 0 && roq_show(&s, PANEL) == 0);
    EXPECT(roq_pop(&s, PANEL).event.kind == ROQ_MOUSE_DOWN);
    EXPECT(pointer(ROQ_MOUSE_UP, 9, 3) == 0 && roq_pop(&s, PANEL).answer == 10 && roq_pop(&s, PLAN).event.kind == ROQ_MOUSE_UP);
}

/* A release far to the right of the panel comes at its last column: there must be no button. */
static void d11_a_pixel_of_edge(void) {
    scene();
    EXPECT(pointer(ROQ_MOUSE_DOWN, 3, 3) == 0 && roq_pop(&s, PANEL).event.kind == ROQ_MOUSE_DOWN);
    EXPECT(pointer(ROQ_MOUSE_UP, 15, 3) == 0);
    RoqEvent up = roq_pop(&s, PANEL).event;
    EXPECT(up.kind == ROQ_MOUSE_UP && up.x == 3 && up.y == 1);
}

/* Kept: calls that only read, and the time between calls, leave every byte, so that a checksum may be kept; a session
 * that is copied as a whole goes on. Broken: a copy that makes calls is unknown to the first. */
static void d12_session_kept_whole(void) {
    uint32_t list[64];
    uint8_t bytes[64];
    scene();
    RoqSession kept = s;
    EXPECT(roq_visible(&s, PLAN, list, 64).answer == 0 && roq_sheet(&s, PLAN, bytes, 64).answer == 0);
    EXPECT(roq_share(&s, PLAN).answer == 0 && roq_rect_of(&s, PANEL).answer == 0 && roq_focus(&s) == PANEL);
    EXPECT(memcmp(&s, &kept, sizeof s) == 0);
    EXPECT(fill(&kept, PANEL, RED) == 0 && roq_mark(&kept, PANEL) == 0);
    EXPECT(redraw(&s, false) == 0 && pixel(2, 2) == GREEN && redraw(&kept, false) == 0 && pixel(2, 2) == RED);
}

/* Broken: a move before each portion. The panel is not drawn, however many there are; a redraw ends that. */
static void d13_walks_end(void) {
    scene();
    EXPECT(fill(&s, PANEL, RED) == 0 && roq_mark(&s, PANEL) == 0 && roq_begin(&s, false) == 0);
    for (int turn = 0; turn < 1000; turn++)
        EXPECT(roq_move(&s, PANEL, 2, 2) == 0 && portion() == 0);
    for (uint32_t at = 0; at < C; at++)
        EXPECT(screen[at] != RED);
    EXPECT(redraw(&s, false) == 0 && pixel(2, 2) == RED && portion() == 20);
}

/* Broken: the answer of the seventeenth press is not looked at. It is lost. */
static void d14_answers_are_read(void) {
    scene();
    for (int press = 0; press < 16; press++)
        EXPECT(pointer(ROQ_MOUSE_DOWN, 3, 3) == 0);
    EXPECT(pointer(ROQ_MOUSE_DOWN, 3, 3) == 12);
    for (int press = 0; press < 16; press++)
        EXPECT(roq_pop(&s, PANEL).answer == 0);
    EXPECT(roq_pop(&s, PANEL).answer == 10);
}

/* Kept: the caller's rounding does not show. Broken: with subnormal numbers read as 0, as by -ffast-math, a corner is
 * accepted that is none; with exceptions that are not masked a look ends the program. */
static uint32_t look(double x) {
    static uint32_t target[C];
    RoqLook at = {x, 0, 1, false};
    return roq_look(&s, PLAN, at, WIDTH, HEIGHT, store, STORE, target, C);
}

static void look_unmasked(void) {
    feenableexcept(FE_OVERFLOW);
    look(1e308);
}

static void d16_floats_as_at_start(void) {
    static const int rounding[] = {FE_TONEAREST, FE_UPWARD, FE_DOWNWARD, FE_TOWARDZERO};
    const double subnormal = 1e-310, above = 0x1.0000000000001p-2;
    scene();
    for (size_t i = 0; i < sizeof rounding / sizeof rounding[0]; i++) {
        EXPECT(fesetround(rounding[i]) == 0 && look(0.25) == 0 && look(0.1) == 22 && look(above) == 22);
        EXPECT(look(subnormal) == 22 && look(1e308) == 22 && look((double)NAN) == 22);
    }
    EXPECT(fesetround(FE_TONEAREST) == 0);
    unsigned control = _mm_getcsr();
    _mm_setcsr(control | 0x8040);
    uint32_t answer = look(subnormal);
    _mm_setcsr(control);
    EXPECT(answer == 0 && ended_by(look_unmasked) == SIGFPE);
}

int main(void) {
    d1_zeros_before_start();
    d4_memory_is_there();
    d5_no_overlap();
    d7_mark_after_write();
    d8_one_screen_and_store();
    d9_a_lowest_window();
    d10_releases_after_presses();
    d11_a_pixel_of_edge();
    d12_session_kept_whole();
    d13_walks_end();
    d14_answers_are_read();
    d16_floats_as_at_start();
    if (!failed)
        printf("the duties of a caller are as the manual says\n");
    return failed;
}
