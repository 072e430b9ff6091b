/* What the header says of lent memory: an array of length 0 may be null, in every call that is lent one; and a screen
 * whose rows have padding is drawn by its pitch. It is linked so that it sees each memcpy, memmove and memset. */
#define _GNU_SOURCE
#include "roqshyn.h"

#include <stdio.h>
#include <string.h>
#include <sys/mman.h>

enum { WIDTH = 8, HEIGHT = 4, C = WIDTH * HEIGHT, STORE = ROQ_WINDOWS * C, SHOWN = 0, HIDDEN = 1, GREY = 1 };
static const RoqRect everything = {{0, 0}, {WIDTH, HEIGHT}};
static RoqSession s;
static uint32_t store[STORE], screen[C];
static int failed = 0;

#define EXPECT(condition)                                                      \
    do {                                                                       \
        if (!(condition)) {                                                    \
            printf("%s:%d: not so: %s\n", __FILE__, __LINE__, #condition);     \
            failed = 1;                                                        \
        }                                                                      \
    } while (0)

/* ---- What the archive hands to the C library: C does not say what becomes of null, even with length 0 ---- */

void *__real_memcpy(void *to, const void *from, size_t bytes);
void *__wrap_memcpy(void *to, const void *from, size_t bytes);
void *__wrap_memcpy(void *to, const void *from, size_t bytes) {
    EXPECT(to != NULL && from != NULL);
    return __real_memcpy(to, from, bytes);
}

void *__real_memmove(void *to, const void *from, size_t bytes);
void *__wrap_memmove(void *to, const void *from, size_t bytes);
void *__wrap_memmove(void *to, const void *from, size_t bytes) {
    EXPECT(to != NULL && from != NULL);
    return __real_memmove(to, from, bytes);
}

void *__real_memset(void *to, int byte, size_t bytes);
void *__wrap_memset(void *to, int byte, size_t bytes);
void *__wrap_memset(void *to, int byte, size_t bytes) {
    EXPECT(to != NULL);
    return __real_memset(to, byte, bytes);
}

/* ---- Arrays of length 0 ---- */

/* A window as large as the screen, and one of no pixels that is hidden. */
static void scene(void) {
    memset(&s, 0, sizeof s);
    EXPECT(roq_start(&s, C) == ROQ_OK && roq_create(&s).id == SHOWN && roq_create(&s).id == HIDDEN);
    EXPECT(roq_resize(&s, SHOWN, WIDTH, HEIGHT, store, STORE) == ROQ_OK && roq_show(&s, SHOWN) == ROQ_OK);
    EXPECT(roq_fill(&s, SHOWN, everything, GREY, store, STORE).answer == ROQ_OK);
}

/* Each call on a session that is lent an array, with none of length 0 in the place of each. */
static void of_session(uint32_t *none, uint8_t *no_bytes) {
    const RoqLook fitting = {0, 0, 1, true};
    uint32_t list[4];
    EXPECT(roq_resize(&s, SHOWN, 1, 1, none, 0) == ROQ_ERROR_STORE_LENGTH);
    EXPECT(roq_maximise(&s, SHOWN, none, 0) == ROQ_ERROR_STORE_LENGTH);
    EXPECT(roq_update_dims(&s, none, 0) == ROQ_ERROR_STORE_LENGTH);
    EXPECT(roq_fill(&s, SHOWN, everything, 7, none, 0).answer == ROQ_ERROR_STORE_LENGTH);
    EXPECT(roq_blit(&s, SHOWN, everything, 1, screen, C, none, 0).answer == ROQ_ERROR_STORE_LENGTH);
    RoqAltered blitted = roq_blit(&s, SHOWN, everything, 1, none, 0, store, STORE);
    EXPECT(blitted.answer == ROQ_OK && blitted.altered == 0);
    EXPECT(roq_redraw(&s, true, WIDTH, HEIGHT, none, 0, screen, C) == ROQ_ERROR_STORE_LENGTH);
    EXPECT(roq_redraw(&s, true, WIDTH, HEIGHT, store, STORE, none, 0) == ROQ_ERROR_SCREEN_SIZE);
    EXPECT(roq_redraw(&s, true, 0, 0, store, STORE, none, 0) == ROQ_ERROR_SCREEN_SIZE);
    EXPECT(roq_begin(&s, true) == ROQ_OK);
    EXPECT(roq_portion(&s, WIDTH, HEIGHT, none, 0, screen, C) == ROQ_ERROR_STORE_LENGTH);
    EXPECT(roq_portion(&s, WIDTH, HEIGHT, store, STORE, none, 0) == ROQ_ERROR_SCREEN_SIZE);
    EXPECT(roq_visible(&s, SHOWN, none, 0).answer == ROQ_ERROR_LIST_LENGTH);
    RoqListing unseen = roq_visible(&s, HIDDEN, none, 0);
    EXPECT(unseen.answer == ROQ_OK && unseen.count == 0);
    EXPECT(roq_hits(&s, none, 0, none, 0) == ROQ_OK && roq_hits(&s, none, 0, list, 4) == ROQ_OK);
    EXPECT(roq_hits(&s, store, 2, none, 0) == ROQ_ERROR_POINTS);
    EXPECT(roq_look(&s, SHOWN, fitting, 1, 1, none, 0, screen, 1) == ROQ_ERROR_STORE_LENGTH);
    EXPECT(roq_look(&s, SHOWN, fitting, 1, 1, store, STORE, none, 0) == ROQ_ERROR_TARGET_SIZE);
    EXPECT(roq_sheet(&s, HIDDEN, no_bytes, 0).answer == ROQ_ERROR_SHEET_LENGTH);
}

/* And each that has no session. */
static void alone(uint32_t *none, uint8_t *no_bytes) {
    static const uint8_t nothing_seen[1] = {0};
    uint32_t list[4];
    RoqPart part = roq_scanline(none, 0, 0, 0, 0, 0, 0);
    EXPECT(part.answer == ROQ_OK && part.start == 0 && part.count == 0);
    EXPECT(roq_scanline(none, 0, WIDTH, HEIGHT, 0, 0, WIDTH).answer == ROQ_ERROR_OUTSIDE_PIXELS);
    EXPECT(roq_fill_scanline(none, 0, WIDTH, HEIGHT, 0, 0, 0, 7).answer == ROQ_OK);
    EXPECT(roq_fill_scanline(none, 0, WIDTH, HEIGHT, 0, 0, WIDTH, 7).answer == ROQ_ERROR_OUTSIDE_PIXELS);
    EXPECT(roq_set_scanline(none, 0, WIDTH, HEIGHT, 0, 0, 0, none, 0).answer == ROQ_OK);
    EXPECT(roq_set_scanline(none, 0, WIDTH, HEIGHT, 0, 0, WIDTH, screen, C).answer == ROQ_ERROR_OUTSIDE_PIXELS);
    RoqAltered set = roq_set_scanline(screen, C, WIDTH, HEIGHT, 0, 0, WIDTH, none, 0);
    EXPECT(set.answer == ROQ_OK && set.altered == 0);
    part = roq_region(none, 0, 0, 0, 0, 0, 1);
    EXPECT(part.answer == ROQ_OK && part.start == 0 && part.count == 0);
    EXPECT(roq_region(none, 0, WIDTH, 0, 0, 1, 1).answer == ROQ_ERROR_OUTSIDE_PIXELS);
    EXPECT(roq_read_sheet(no_bytes, 0, list, 4).answer == ROQ_ERROR_NO_SHEET);
    EXPECT(roq_read_sheet(no_bytes, 0, none, 0).answer == ROQ_ERROR_NO_SHEET);
    RoqListing read = roq_read_sheet(nothing_seen, 1, none, 0);
    EXPECT(read.answer == ROQ_OK && read.count == 0);
    RoqSecond second = roq_busiest(none, 0);
    EXPECT(second.answer == ROQ_OK && second.count == 0 && second.place == 0);
}

/* ---- Rows with padding ---- */

/* A screen of 8 by 4 whose rows begin 11 pixels apart: the pitch is handed over as the width. What lies under no window
 * stays as it is, the padding too. */
static void padding(void) {
    enum { PITCH = 11, PADDED = 9 };
    static uint32_t rows[PITCH * HEIGHT];
    scene();
    for (size_t i = 0; i < PITCH * HEIGHT; i++)
        rows[i] = PADDED;
    EXPECT(roq_redraw(&s, true, PITCH, HEIGHT, store, STORE, rows, PITCH * HEIGHT) == ROQ_OK);
    for (size_t i = 0; i < PITCH * HEIGHT; i++)
        EXPECT(rows[i] == (i % PITCH < WIDTH ? GREY : PADDED));
}

int main(void) {
    void *untouchable = mmap(NULL, 4096, PROT_NONE, MAP_PRIVATE | MAP_ANONYMOUS, -1, 0);
    EXPECT(untouchable != MAP_FAILED);
    scene();
    of_session(NULL, NULL);
    alone(NULL, NULL);
    of_session(untouchable, untouchable);
    alone(untouchable, untouchable);
    padding();
    if (!failed)
        printf("arrays of length 0 may be null, and rows may have padding\n");
    return failed;
}
