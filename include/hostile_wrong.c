/* Wrong libraries, each with one mistake: bash include/hostile --test links it by the linker's --wrap and names the
 * mistake in HOSTILE_MISTAKE. A mistake is a line of MISTAKES: the call, and what is wrong. */
#include "roqshyn.h"

#include <stdlib.h>
#include <string.h>

#define MISTAKES                                                                                                       \
    MISTAKE(move_session, "a refused move changes a byte of the session")                                              \
    MISTAKE(move_answer, "a move answers 3 where 5 is due")                                                            \
    MISTAKE(fill_store, "a refused fill writes a pixel")                                                               \
    MISTAKE(fill_count, "a fill counts a pixel too many")                                                              \
    MISTAKE(redraw_screen, "a refused redraw writes a pixel of the screen")                                            \
    MISTAKE(redraw_behind, "a redraw reads the pixel behind the store")                                                \
    MISTAKE(redraw_before, "a redraw reads the pixel before the store")                                                \
    MISTAKE(redraw_pixel, "a forced redraw leaves the last pixel out")                                                 \
    MISTAKE(blit_data, "a blit writes its data")                                                                       \
    MISTAKE(resize_next, "a resize writes a pixel of the next window")                                                 \
    MISTAKE(visible_behind, "a list is written past its length")                                                       \
    MISTAKE(hits_rest, "the rest of a list of hits is written")                                                        \
    MISTAKE(hits_points, "an x without its y is passed over")                                                          \
    MISTAKE(look_target, "a refused look writes a pixel of the target")                                                \
    MISTAKE(look_pixel, "a look leaves the last pixel of the target out")                                              \
    MISTAKE(sheet_rest, "the rest of a sheet's buffer is written")                                                     \
    MISTAKE(rect_session, "a query writes the session")                                                                \
    MISTAKE(focus_late, "the focus is that of the call before")                                                        \
    MISTAKE(pop_button, "an event loses its button")                                                                   \
    MISTAKE(route_order, "a point is asked before the kind of an event")                                               \
    MISTAKE(took_refused, "a window with a full queue took the event")                                                 \
    MISTAKE(took_keys, "a key is taken at the mouse's point")                                                          \
    MISTAKE(waiting_moves, "an unread move does not wait")                                                             \
    MISTAKE(portion_over, "a portion is accepted after the walk is over")                                              \
    MISTAKE(stale_less, "what is stale has a column too few")                                                          \
    MISTAKE(stale_more, "what is stale is the whole area")                                                             \
    MISTAKE(stale_order, "the call that is meant is asked before the area")                                            \
    MISTAKE(stale_owed, "a redraw that is owed counts as one that is not")                                             \
    MISTAKE(window_place, "a place is counted from 1")                                                                 \
    MISTAKE(window_refused, "a refused window has an event")                                                           \
    MISTAKE(state_left, "a walk has a portion too many")                                                               \
    MISTAKE(state_grab, "the focus is named for the press")                                                            \
    MISTAKE(maximise_order, "an id is asked before the store")                                                         \
    MISTAKE(read_longer, "a sheet may have a byte too many")                                                           \
    MISTAKE(set_nothing, "data of length 0 is read")                                                                   \
    MISTAKE(start_refused, "a refused start keeps the session")                                                        \
    MISTAKE(busiest_behind, "the time behind a run is read")

enum mistake {
#define MISTAKE(name, words) name,
    MISTAKES
#undef MISTAKE
};

static bool is(enum mistake m) {
    static const char *const names[] = {
#define MISTAKE(name, words) #name,
        MISTAKES
#undef MISTAKE
    };
    static const char *chosen;
    if (chosen == NULL)
        chosen = getenv("HOSTILE_MISTAKE");
    return chosen != NULL && strcmp(chosen, names[m]) == 0;
}

static void read_at(const uint32_t *at) { (void)*(const volatile uint32_t *)at; }

#define WRAP(result, call, ...)                                                                                        \
    result __real_roq_##call(__VA_ARGS__);                                                                             \
    result __wrap_roq_##call(__VA_ARGS__);                                                                             \
    result __wrap_roq_##call(__VA_ARGS__)

WRAP(uint32_t, start, RoqSession *s, uint32_t c) {
    if (is(start_refused) && (c == 0 || c > 1048576))
        return 2;
    return __real_roq_start(s, c);
}

WRAP(uint32_t, move, RoqSession *s, uint32_t id, uint32_t x, uint32_t y) {
    uint32_t answer = __real_roq_move(s, id, x, y);
    if (is(move_session) && answer == 5)
        s->words[700] ^= 1;
    return is(move_answer) && answer == 5 ? 3 : answer;
}

WRAP(RoqAltered, fill, RoqSession *s, uint32_t id, RoqRect area, uint32_t colour, uint32_t *store, size_t store_len) {
    RoqAltered got = __real_roq_fill(s, id, area, colour, store, store_len);
    if (is(fill_store) && got.answer == 5)
        store[store_len - 1]++;
    got.altered += is(fill_count) && got.altered > 9;
    return got;
}

WRAP(uint32_t, redraw, RoqSession *s, bool forced, uint32_t width, uint32_t height, const uint32_t *store,
     size_t store_len, uint32_t *screen, size_t screen_len) {
    uint32_t last = screen_len > 0 ? screen[screen_len - 1] : 0;
    uint32_t answer = __real_roq_redraw(s, forced, width, height, store, store_len, screen, screen_len);
    if (is(redraw_pixel) && answer == 0)
        screen[screen_len - 1] = last;
    if (is(redraw_behind))
        read_at(store + store_len);
    if (is(redraw_before) && store_len > 0)
        read_at(store - 1);
    if (is(redraw_screen) && answer == 8 && screen_len > 0)
        screen[screen_len / 2]++;
    return answer;
}

WRAP(RoqAltered, blit, RoqSession *s, uint32_t id, RoqRect area, size_t stride, const uint32_t *data, size_t data_len,
     uint32_t *store, size_t store_len) {
    union {
        const uint32_t *read;
        uint32_t *written;
    } first = {data};
    if (is(blit_data) && data_len > 9)
        first.written[9] = 0;
    return __real_roq_blit(s, id, area, stride, data, data_len, store, store_len);
}

WRAP(uint32_t, resize, RoqSession *s, uint32_t id, uint32_t w, uint32_t h, uint32_t *store, size_t store_len) {
    uint32_t answer = __real_roq_resize(s, id, w, h, store, store_len);
    if (is(resize_next) && answer == 0 && id < 15)
        store[(id + 1) * (store_len / 16)]++;
    return answer;
}

WRAP(RoqListing, visible, const RoqSession *s, uint32_t id, uint32_t *list, size_t list_len) {
    RoqListing got = __real_roq_visible(s, id, list, list_len);
    if (is(visible_behind) && got.count > 2 && list_len == 4 * got.count)
        list[list_len] = 1;
    return got;
}

WRAP(uint32_t, hits, const RoqSession *s, const uint32_t *points, size_t points_len, uint32_t *answers,
     size_t answers_len) {
    if (is(hits_points))
        points_len -= points_len % 2;
    uint32_t answer = __real_roq_hits(s, points, points_len, answers, answers_len);
    if (is(hits_rest) && answer == 0 && answers_len > points_len / 2 * 3)
        answers[points_len / 2 * 3]++;
    return answer;
}

WRAP(uint32_t, look, const RoqSession *s, uint32_t id, RoqLook look, uint32_t tw, uint32_t th, const uint32_t *store,
     size_t store_len, uint32_t *target, size_t target_len) {
    uint32_t last = target_len > 0 ? target[target_len - 1] : 0;
    uint32_t answer = __real_roq_look(s, id, look, tw, th, store, store_len, target, target_len);
    if (is(look_pixel) && answer == 0)
        target[target_len - 1] = last;
    if (is(look_target) && answer == 22 && target_len > 0)
        target[0]++;
    return answer;
}

WRAP(RoqListing, sheet, const RoqSession *s, uint32_t id, uint8_t *bytes, size_t bytes_len) {
    RoqListing got = __real_roq_sheet(s, id, bytes, bytes_len);
    if (is(sheet_rest) && got.answer == 0 && bytes_len > got.count)
        bytes[got.count]++;
    return got;
}

WRAP(RoqPlaced, rect_of, const RoqSession *s, uint32_t id) {
    union {
        const RoqSession *read;
        RoqSession *written;
    } session = {s};
    RoqPlaced got = __real_roq_rect_of(s, id);
    if (is(rect_session) && got.answer == 3)
        session.written->words[0] = 0;
    return got;
}

WRAP(uint32_t, focus, const RoqSession *s) {
    static uint32_t before;
    uint32_t now = __real_roq_focus(s), said = is(focus_late) ? before : now;
    before = now;
    return said;
}

WRAP(RoqPopped, pop, RoqSession *s, uint32_t id) {
    RoqPopped got = __real_roq_pop(s, id);
    if (is(pop_button) && got.event.kind == ROQ_MOUSE_UP)
        got.event.button = 0;
    return got;
}

WRAP(uint32_t, route, RoqSession *s, RoqEvent e) {
    if (is(route_order) && e.kind == ROQ_KEY_FIRE && e.x > 32767)
        return 5;
    return __real_roq_route(s, e);
}

WRAP(RoqRouted, route_to, RoqSession *s, RoqEvent e) {
    RoqRouted got = __real_roq_route_to(s, e);
    if (is(took_refused) && got.answer == 12)
        got.id = roq_focus(s);
    if (is(took_keys) && got.answer == 0 && e.kind == ROQ_KEY_DOWN)
        got.x = e.x;
    return got;
}

WRAP(uint32_t, waiting, const RoqSession *s) {
    uint32_t bits = __real_roq_waiting(s);
    for (uint32_t id = 0; id < 16; id++)
        if (is(waiting_moves) && roq_window(s, id).moved && roq_window(s, id).queued == 0)
            bits &= ~(UINT32_C(1) << id);
    return bits;
}

RoqState __real_roq_state(const RoqSession *s);

WRAP(RoqStale, stale, const RoqSession *s, uint32_t which, RoqRect area) {
    RoqStale got = __real_roq_stale(s, which, area);
    if (is(stale_less) && got.rect.dims.w > 1)
        got.rect.dims.w--;
    if (is(stale_more) && got.due)
        got.rect = area;
    if (is(stale_order) && which > ROQ_PORTION)
        got.answer = 28;
    if (is(stale_owed) && which == ROQ_REDRAW && got.due && __real_roq_state(s).owed)
        memset(&got, 0, sizeof got);
    return got;
}

WRAP(RoqWindow, window, const RoqSession *s, uint32_t id) {
    RoqWindow got = __real_roq_window(s, id);
    got.place += is(window_place) && got.shown;
    got.queued += is(window_refused) && got.answer == 3;
    return got;
}

WRAP(RoqState, state, const RoqSession *s) {
    RoqState got = __real_roq_state(s);
    got.left += is(state_left) && got.walk;
    if (is(state_grab) && got.grab < 16)
        got.grab = got.focus;
    return got;
}

WRAP(uint32_t, portion, RoqSession *s, uint32_t width, uint32_t height, const uint32_t *store, size_t store_len,
     uint32_t *screen, size_t screen_len) {
    uint32_t answer = __real_roq_portion(s, width, height, store, store_len, screen, screen_len);
    return is(portion_over) && answer == 20 ? 0 : answer;
}

WRAP(uint32_t, maximise, RoqSession *s, uint32_t id, uint32_t *store, size_t store_len) {
    if (is(maximise_order) && id >= 16)
        return 3;
    return __real_roq_maximise(s, id, store, store_len);
}

WRAP(RoqListing, read_sheet, const uint8_t *bytes, size_t bytes_len, uint32_t *list, size_t list_len) {
    RoqListing got = __real_roq_read_sheet(bytes, bytes_len, list, list_len);
    if (is(read_longer) && got.answer == 18 && bytes_len > 1)
        return __real_roq_read_sheet(bytes, bytes_len - 1, list, list_len);
    return got;
}

WRAP(RoqAltered, set_scanline, uint32_t *pixels, size_t pixels_len, uint32_t width, uint32_t height, uint32_t line,
     uint32_t ofs, uint32_t len, const uint32_t *data, size_t data_len) {
    if (is(set_nothing))
        read_at(data);
    return __real_roq_set_scanline(pixels, pixels_len, width, height, line, ofs, len, data, data_len);
}

WRAP(RoqSecond, busiest, const uint32_t *times, size_t count) {
    if (is(busiest_behind))
        read_at(times + count);
    return __real_roq_busiest(times, count);
}
