/* A desk's layout, saved to a file and built again by calls: rectangles, order, layers and flags. What roq_window and
 * roq_state tell is all that is needed; they also tell whether the new session stands as the old one did.
 *
 * saved FILE saves a desk of five windows to FILE, builds another of it, and compares the two. */
#include "roqshyn.h"

#include <stdio.h>
#include <stdlib.h>

enum { W = 640, H = 400, C = W * H, STORE = 16 * C, WINDOWS = 16 };

static uint32_t store[STORE];

static void must(const char *what, bool is) {
    if (is) return;
    fprintf(stderr, "saved: %s\n", what);
    exit(1);
}

static RoqRect rect(uint32_t x, uint32_t y, uint32_t w, uint32_t h) {
    RoqRect r = {{x, y}, {w, h}};
    return r;
}

/* ---- The desk that is saved ---- */

static void window(RoqSession *s, RoqRect at, uint32_t layer) {
    uint32_t id = roq_create(s).id;
    must("resize", roq_resize(s, id, at.dims.w, at.dims.h, store, STORE) == 0);
    must("move", roq_move(s, id, at.pos.x, at.pos.y) == 0);
    must("layer", roq_set_layer(s, id, layer) == 0);
    must("show", roq_show(s, id) == 0);
}

/* A plan that fills the display, three panels of which one is hidden and one lies above that with the focus, and an
 * emergency stop above all. Id 2 is free. */
static void desk(RoqSession *s) {
    must("start", roq_start(s, C) == 0);
    must("display", roq_add_display(s, rect(0, 0, W, H)) == 0);
    window(s, rect(8, 8, 1, 1), 0);
    window(s, rect(40, 60, 200, 120), 0);
    window(s, rect(0, 0, 9, 9), 0);
    window(s, rect(90, 90, 200, 120), 0);
    window(s, rect(500, 20, 100, 60), 1);
    window(s, rect(300, 200, 150, 100), 0);
    must("maximise", roq_maximise(s, 0, store, STORE) == 0);
    must("drop", roq_drop(s, 2) == 0);
    must("hide", roq_hide(s, 3) == 0);
    must("raise", roq_raise(s, 1) == 0);
    must("layer", roq_set_layer(s, 5, 1) == 0 && roq_set_layer(s, 5, 0) == 0);
    must("dim", roq_dim(s, true) == 0);
}

/* ---- Saved: a line of the session, and one of each window in use ---- */

static void save(const RoqSession *s, FILE *file) {
    RoqState t = roq_state(s);
    fprintf(file, "%u %u %u %u\n", (unsigned)t.c, (unsigned)t.shown, (unsigned)t.focus, (unsigned)t.dimmed);
    for (uint32_t id = 0; id < WINDOWS; id++) {
        RoqWindow w = roq_window(s, id);
        RoqRect r = w.rect;
        if (w.answer != 0) continue;
        fprintf(file, "%u %u %u %u %u ", (unsigned)id, (unsigned)r.pos.x, (unsigned)r.pos.y, (unsigned)r.dims.w,
                (unsigned)r.dims.h);
        fprintf(file, "%u %u %u %u\n", (unsigned)w.shown, (unsigned)w.place, (unsigned)w.layer, (unsigned)w.maximised);
    }
}

/* ---- Built again ---- */

struct line {
    unsigned id, x, y, w, h, shown, place, layer, maximised;
};

static bool next(FILE *file, struct line *l) {
    return fscanf(file, "%u %u %u %u %u %u %u %u %u", &l->id, &l->x, &l->y, &l->w, &l->h, &l->shown, &l->place, &l->layer,
                  &l->maximised) == 9;
}

/* A create gives the smallest unused id, so those in between are created and dropped again. */
static void take_id(RoqSession *s, uint32_t id) {
    while (roq_create(s).id < id)
        continue;
}

/* A maximised window takes the rectangle of its display, as it had it. */
static void place(RoqSession *s, const struct line *l) {
    must("layer", roq_set_layer(s, l->id, l->layer) == 0);
    must("resize", roq_resize(s, l->id, l->w, l->h, store, STORE) == 0);
    must("move", roq_move(s, l->id, l->x, l->y) == 0);
    if (l->maximised) must("maximise", roq_maximise(s, l->id, store, STORE) == 0);
}

/* Puts a window on top of its layer and leaves the focus where it is. */
static void lift(RoqSession *s, uint32_t id) {
    uint32_t layer = roq_window(s, id).layer;
    must("layer", roq_set_layer(s, id, 1 - layer) == 0 && roq_set_layer(s, id, layer) == 0);
}

/* The focus comes with a raise; those that stood above it in its layer are lifted there again. */
static void give_focus(RoqSession *s, uint32_t focus, const unsigned *order, unsigned shown) {
    if (shown == 0) return;
    RoqWindow w = roq_window(s, focus);
    must("raise", w.shown && roq_raise(s, focus) == 0);
    for (unsigned k = w.place + 1; k < shown; k++)
        if (roq_window(s, order[k]).layer == w.layer) lift(s, order[k]);
}

static void build(RoqSession *s, FILE *file) {
    unsigned c, shown, focus, dimmed, order[WINDOWS], last = 0;
    bool used[WINDOWS] = {false};
    struct line l;
    must("a first line", fscanf(file, "%u %u %u %u", &c, &shown, &focus, &dimmed) == 4 && shown <= WINDOWS);
    must("start", roq_start(s, c) == 0 && roq_add_display(s, rect(0, 0, W, H)) == 0);
    while (next(file, &l)) {
        must("an id and a place", l.id < WINDOWS && l.place < WINDOWS);
        take_id(s, l.id);
        place(s, &l);
        used[l.id] = true;
        last = l.id;
        if (l.shown) order[l.place] = l.id;
    }
    for (uint32_t id = 0; id < last; id++)
        if (!used[id]) must("drop", roq_drop(s, id) == 0);
    for (unsigned k = 0; k < shown; k++)
        must("show", roq_show(s, order[k]) == 0);
    give_focus(s, focus, order, shown);
    must("dim", roq_dim(s, dimmed) == 0);
}

/* ---- Compared: all but events and what is to be drawn ---- */

static bool same_window(RoqWindow a, RoqWindow b) {
    return a.answer == b.answer && a.rect.pos.x == b.rect.pos.x && a.rect.pos.y == b.rect.pos.y &&
           a.rect.dims.w == b.rect.dims.w && a.rect.dims.h == b.rect.dims.h && a.shown == b.shown && a.place == b.place &&
           a.layer == b.layer && a.maximised == b.maximised;
}

static void compare(const RoqSession *a, const RoqSession *b) {
    unsigned windows = 0, same = 0;
    for (uint32_t id = 0; id < WINDOWS; id++) {
        windows += roq_window(a, id).answer == 0;
        same += roq_window(a, id).answer == 0 && same_window(roq_window(a, id), roq_window(b, id));
        must("a window too many", roq_window(a, id).answer == roq_window(b, id).answer);
    }
    RoqState x = roq_state(a), y = roq_state(b);
    printf("windows: %u, as they were: %u\n", windows, same);
    printf("shown: %u and %u, focus: %u and %u\n", (unsigned)x.shown, (unsigned)y.shown, (unsigned)x.focus, (unsigned)y.focus);
    printf("dimmed: %u and %u, displays: %u and %u\n", x.dimmed, y.dimmed, (unsigned)x.displays, (unsigned)y.displays);
}

int main(int count, char **words) {
    static RoqSession old, new;
    if (count != 2) return 2;
    desk(&old);
    FILE *file = fopen(words[1], "w+");
    must("the file can be written", file != NULL);
    save(&old, file);
    rewind(file);
    build(&new, file);
    rewind(file);
    for (int c = fgetc(file); c != EOF; c = fgetc(file))
        putchar(c);
    fclose(file);
    compare(&old, &new);
    return 0;
}
