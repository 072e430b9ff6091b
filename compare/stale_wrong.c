/* Wrong libraries, each with one mistake: bash compare/stale --test links it by the linker's --wrap and names the mistake
 * in STALE_MISTAKE. A mistake is a line of MISTAKES: its name, and what is wrong. */
#include "roqshyn.h"

#include <stdlib.h>
#include <string.h>

#define MISTAKES                                                                                                       \
    MISTAKE(columns, "the last column is left out")                                                                    \
    MISTAKE(rows, "the first row is left out")                                                                         \
    MISTAKE(whole, "all of the area where anything is stale")                                                          \
    MISTAKE(debt, "a full redraw that is owed is forgotten")                                                           \
    MISTAKE(damage, "a marked window counts as drawn in full")                                                         \
    MISTAKE(covered, "what other windows cover counts too")                                                            \
    MISTAKE(portion, "the next portion counts as an undivided redraw")                                                 \
    MISTAKE(cut, "what lies behind column 31 is forgotten")                                                            \
    MISTAKE(walk, "a portion with no walk has an answer")                                                              \
    MISTAKE(mark, "the question marks a window")

enum mistake {
#define MISTAKE(name, words) name,
    MISTAKES
#undef MISTAKE
};

static bool is(enum mistake m) {
    static const char *const names[] = {
#define MISTAKE(name, words) #name,
        MISTAKES
#undef MISTAKE
    };
    static const char *chosen;
    if (chosen == NULL)
        chosen = getenv("STALE_MISTAKE");
    return chosen != NULL && strcmp(chosen, names[m]) == 0;
}

RoqStale __real_roq_stale(const RoqSession *s, uint32_t which, RoqRect area);
RoqStale __wrap_roq_stale(const RoqSession *s, uint32_t which, RoqRect area);

/* What the area has of the windows that are shown, as one rectangle: of those that are marked, or of the one at a
 * place. */
static RoqStale covering(const RoqSession *s, bool marked, uint32_t place, RoqRect area) {
    RoqStale got = {0, false, {{0, 0}, {0, 0}}};
    for (uint32_t id = 0; id < 16; id++) {
        RoqWindow w = roq_window(s, id);
        RoqIntersection common = roq_intersect(w.rect, area);
        if (!w.shown || !common.meets || !(marked ? w.marked : w.place == place))
            continue;
        got.rect = got.due ? roq_union(got.rect, common.rect).rect : common.rect;
        got.due = true;
    }
    return got;
}

/* One that depends on what the right library says. */
static RoqStale spoilt(RoqStale got, RoqRect area) {
    if (is(columns) && got.rect.dims.w > 1)
        got.rect.dims.w--;
    if (is(rows) && got.rect.dims.h > 1)
        got.rect.pos.y++, got.rect.dims.h--;
    if (is(whole) && got.due)
        got.rect = area;
    if (is(cut) && got.rect.pos.x < 32 && got.rect.pos.x + got.rect.dims.w > 32)
        got.rect.dims.w = 32 - got.rect.pos.x;
    return got;
}

RoqStale __wrap_roq_stale(const RoqSession *s, uint32_t which, RoqRect area) {
    union {
        const RoqSession *read;
        RoqSession *written;
    } session = {s};
    RoqState state = roq_state(s);
    RoqStale got = spoilt(__real_roq_stale(s, which, area), area);
    RoqStale none = {0, false, {{0, 0}, {0, 0}}};
    if (is(debt) && which == ROQ_REDRAW && state.owed)
        return none;
    if (is(damage) && which == ROQ_REDRAW && got.due && !state.owed)
        return covering(s, true, 0, area);
    if (is(covered) && which == ROQ_PORTION && state.walk && state.full)
        return covering(s, false, state.shown - state.left, area);
    if (is(portion) && which == ROQ_PORTION && state.walk)
        return __real_roq_stale(s, ROQ_REDRAW, area);
    if (is(walk) && which == ROQ_PORTION && !state.walk)
        return none;
    if (is(mark))
        roq_mark(session.written, 3);
    return got;
}
