/* What the files share that make calls. */
#ifndef HOSTILE_CALLS_H
#define HOSTILE_CALLS_H

#include "hostile.h"

enum { LIMIT = 32767 };

/* A question, in a function that gives the answer that is due. */
#define ASK(question, number)                                                                                          \
    do {                                                                                                               \
        if (!(question))                                                                                               \
            return (number);                                                                                           \
    } while (0)

static inline uint32_t least(uint32_t a, uint32_t b) { return a < b ? a : b; }

static inline bool is_small(RoqRect r) {
    return r.pos.x <= LIMIT && r.pos.y <= LIMIT && r.dims.w <= LIMIT && r.dims.h <= LIMIT;
}

static inline bool same_rect(RoqRect a, RoqRect b) {
    return a.pos.x == b.pos.x && a.pos.y == b.pos.y && a.dims.w == b.dims.w && a.dims.h == b.dims.h;
}

/* hostile_windows.c */
void call_start(void);
void call_create(void);
void call_show(void);
void call_raise(void);
void call_hide(void);
void call_drop(void);
void call_mark(void);
void call_move(void);
void call_drag(void);
void call_set_layer(void);
void call_add_display(void);
void call_display_at(void);
void call_focus(void);
void call_rect_of(void);
void call_dim(void);

/* hostile_events.c */
void call_route(void);
void call_route_to(void);
void call_pop(void);
void call_hits(void);

/* hostile_store.c */
void call_resize(void);
void call_maximise(void);
void call_update_dims(void);
void call_fill(void);
void call_blit(void);
/* The length of a store, mostly the right one; whether it is right. */
size_t store_length(void);
bool store_fits(size_t len);
uint64_t pixels_of(RoqDims dims);

/* hostile_redraw.c */
void call_redraw(void);
void call_begin(void);
void call_portion(void);
/* The size of a screen or target, and whether this one may be lent with this length. */
RoqDims screen_dims(void);
bool screen_fits(RoqDims dims, size_t len);

/* hostile_stale.c */
void call_stale(void);

/* hostile_state.c */
void call_waiting(void);
void call_window(void);
void call_state(void);

/* hostile_look.c */
void call_look(void);

/* hostile_visible.c */
void call_visible(void);
void call_share(void);
void call_sheet(void);
void call_read_sheet(void);

/* hostile_rects.c */
void call_contains(void);
void call_contains_rect(void);
void call_within(void);
void call_intersect(void);
void call_union(void);
void call_not_intersect(void);

/* hostile_pixels.c */
void call_scanline(void);
void call_fill_scanline(void);
void call_set_scanline(void);
void call_region(void);

/* hostile_times.c */
void call_busiest(void);

/* hostile_version.c */
void call_version(void);
void call_session_size(void);

#endif
