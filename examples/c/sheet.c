/* A plan printer. A plan of 40 by 12 lies under two turnout panels that overlap and an emergency stop that reaches beyond its corner. The station writes
 * what is seen of the plan as a sheet and sends its bytes; the printer reads them and prints the rectangles, with no session of its own. A byte that got
 * lost or was added on the way is noticed.
 *
 * sheet writes the bytes, the rectangles that are read in them, and the picture that these make: # is seen of the plan. */
#include "roqshyn.h"

#include <stdio.h>
#include <stdlib.h>
#include <string.h>

enum { W = 40, H = 12, C = W * H, STORE = ROQ_WINDOWS * C };

static RoqSession s;
static uint32_t store[STORE];

/* Every call of the station is one that the library takes: another answer is a mistake of ours. */
static void must(const char *call, uint32_t answer) {
    if (answer == ROQ_OK) return;
    fprintf(stderr, "sheet: %s was answered by %u\n", call, (unsigned)answer);
    exit(1);
}

/* ---- The station ---- */

static uint32_t window(uint32_t x, uint32_t y, uint32_t w, uint32_t h) {
    RoqCreated made = roq_create(&s);
    must("create", made.answer);
    must("resize", roq_resize(&s, made.id, w, h, store, STORE));
    must("move", roq_move(&s, made.id, x, y));
    must("show", roq_show(&s, made.id));
    return made.id;
}

static size_t send_sheet(uint32_t id, uint8_t *bytes) {
    RoqListing sheet = roq_sheet(&s, id, bytes, ROQ_SHEET_LEN);
    must("sheet", sheet.answer);
    printf("bytes sent: %zu", sheet.count);
    for (size_t i = 0; i < sheet.count; i++)
        printf("%s%02x", i % 24 ? " " : "\n  ", (unsigned)bytes[i]);
    printf("\n");
    return sheet.count;
}

/* ---- The printer ---- */

/* The paper with every rectangle printed. One that leaves the paper is no part of this plan. */
static void picture(const uint32_t *list, size_t count) {
    char paper[H][W + 1];
    for (size_t row = 0; row < H; row++)
        memset(paper[row], '.', W), paper[row][W] = '\0';
    for (size_t i = 0; i < count; i++) {
        const uint32_t *r = list + 4 * i;
        if (r[0] + r[2] > W || r[1] + r[3] > H) must("picture", 1);
        for (uint32_t row = r[1]; row < r[1] + r[3]; row++)
            memset(paper[row] + r[0], '#', r[2]);
    }
    for (size_t row = 0; row < H; row++)
        printf("  %s\n", paper[row]);
}

static void receive_sheet(const uint8_t *bytes, size_t len) {
    static uint32_t list[ROQ_VISIBLE_LEN];
    RoqListing read = roq_read_sheet(bytes, len, list, ROQ_VISIBLE_LEN);
    if (read.answer != ROQ_OK) {
        printf("bytes received: %zu, refused by question %u\n", len, (unsigned)read.answer);
        return;
    }
    printf("bytes received: %zu, rectangles: %zu\n", len, read.count);
    for (size_t i = 0; i < read.count; i++) {
        const uint32_t *r = list + 4 * i;
        printf("  (%u,%u), %u by %u\n", (unsigned)r[0], (unsigned)r[1], (unsigned)r[2], (unsigned)r[3]);
    }
    if (read.count > 0) picture(list, read.count);
}

int main(void) {
    static uint8_t bytes[ROQ_SHEET_LEN + 1];
    must("start", roq_start(&s, C));
    uint32_t plan = window(0, 0, W, H);
    window(4, 2, 12, 5);
    uint32_t panel = window(10, 4, 14, 5);
    window(32, 9, 12, 6);

    size_t len = send_sheet(plan, bytes);
    receive_sheet(bytes, len);
    receive_sheet(bytes, len - 1);
    bytes[len] = 0;
    receive_sheet(bytes, len + 1);

    must("hide", roq_hide(&s, panel));
    printf("a panel that is hidden\n");
    receive_sheet(bytes, send_sheet(panel, bytes));
    return 0;
}
