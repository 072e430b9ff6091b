/* hostile CALLS SEED: random calls with random arguments, each judged beside a model of the session. It prints the
 * seed, how often each call gave each answer, and at last the counts; the first difference ends it. */
#define _GNU_SOURCE
#include "hostile_calls.h"

#include <inttypes.h>
#include <signal.h>
#include <stdio.h>
#include <stdlib.h>
#include <unistd.h>

/* Every exported call: how often it is made, and the answers that the header lists for it beside 0. */
static const struct call {
    const char *name;
    uint32_t weight;
    void (*make)(void);
    uint32_t may_answer[4];
} calls[] = {
    {"roq_start", 1, call_start, {2}},
    {"roq_create", 60, call_create, {4}},
    {"roq_show", 60, call_show, {3}},
    {"roq_raise", 20, call_raise, {3}},
    {"roq_hide", 8, call_hide, {3}},
    {"roq_drop", 4, call_drop, {3}},
    {"roq_mark", 20, call_mark, {3}},
    {"roq_move", 20, call_move, {3, 5}},
    {"roq_drag", 20, call_drag, {3, 5}},
    {"roq_set_layer", 20, call_set_layer, {3, 17}},
    {"roq_resize", 80, call_resize, {1, 3, 5, 6}},
    {"roq_add_display", 12, call_add_display, {5, 15, 16}},
    {"roq_display_at", 20, call_display_at, {5}},
    {"roq_maximise", 6, call_maximise, {1, 3, 6}},
    {"roq_update_dims", 4, call_update_dims, {1, 6}},
    {"roq_fill", 50, call_fill, {1, 3, 5}},
    {"roq_blit", 50, call_blit, {1, 3, 5, 7}},
    {"roq_route", 150, call_route, {5, 11, 12, 21}},
    {"roq_route_to", 60, call_route_to, {5, 11, 12, 21}},
    {"roq_pop", 80, call_pop, {3, 10}},
    {"roq_waiting", 20, call_waiting, {0}},
    {"roq_redraw", 20, call_redraw, {1, 8}},
    {"roq_begin", 20, call_begin, {0}},
    {"roq_portion", 60, call_portion, {1, 8, 20}},
    {"roq_dim", 4, call_dim, {0}},
    {"roq_stale", 30, call_stale, {5, 20, 28}},
    {"roq_visible", 30, call_visible, {3, 9}},
    {"roq_share", 20, call_share, {3, 24}},
    {"roq_hits", 20, call_hits, {5, 25}},
    {"roq_look", 40, call_look, {1, 3, 22, 23}},
    {"roq_sheet", 20, call_sheet, {3, 19}},
    {"roq_focus", 10, call_focus, {0}},
    {"roq_rect_of", 20, call_rect_of, {3}},
    {"roq_window", 30, call_window, {3}},
    {"roq_state", 30, call_state, {0}},
    {"roq_contains", 10, call_contains, {14}},
    {"roq_contains_rect", 10, call_contains_rect, {14}},
    {"roq_within", 10, call_within, {14}},
    {"roq_intersect", 10, call_intersect, {14}},
    {"roq_union", 10, call_union, {14}},
    {"roq_not_intersect", 10, call_not_intersect, {14}},
    {"roq_scanline", 20, call_scanline, {5, 13}},
    {"roq_fill_scanline", 20, call_fill_scanline, {5, 13}},
    {"roq_set_scanline", 20, call_set_scanline, {5, 13}},
    {"roq_region", 20, call_region, {5, 13}},
    {"roq_read_sheet", 30, call_read_sheet, {18, 19}},
    {"roq_busiest", 10, call_busiest, {26, 27}},
    {"roq_version", 1, call_version, {0}},
    {"roq_session_size", 1, call_session_size, {0}},
};

enum { CALLS = sizeof calls / sizeof calls[0], ANSWERS = 29, MOST_GIVEN = 8 };

static uint64_t seed, number, refused, counts[CALLS][ANSWERS];
static size_t current, given_count;
static uint64_t arguments[MOST_GIVEN];

void given(const uint64_t *numbers, size_t count) {
    given_count = count < MOST_GIVEN ? count : MOST_GIVEN;
    for (size_t i = 0; i < given_count; i++)
        arguments[i] = numbers[i];
}

/* Says where a difference is, and ends the program. */
static _Noreturn void differ(const char *what) {
    printf("seed %" PRIu64 ", call %" PRIu64 ", %s(", seed, number, calls[current].name);
    for (size_t i = 0; i < given_count; i++)
        printf("%s%" PRIu64, i == 0 ? "" : ", ", arguments[i]);
    printf("): %s\n", what);
    fflush(stdout);
    _exit(1);
}

void expect(bool so, const char *what) {
    if (!so)
        differ(what);
}

static bool may_answer(uint32_t answer) {
    for (size_t i = 0; i < sizeof calls[0].may_answer / sizeof(uint32_t); i++)
        if (calls[current].may_answer[i] == answer)
            return true;
    return answer == 0;
}

void answered(uint32_t answer, uint32_t due) {
    char what[80];
    if (answer != due) {
        snprintf(what, sizeof what, "it answered %" PRIu32 ", and %" PRIu32 " is due", answer, due);
        differ(what);
    }
    expect(may_answer(answer), "the header does not list this answer");
    counts[current][answer]++;
    refused += answer != 0;
}

bool accepted(uint32_t answer, uint32_t due) {
    answered(answer, due);
    if (answer != 0)
        expect(all_kept(), "it was refused, and changed what it was lent");
    else
        expect(surroundings_kept(), "it wrote beside what it was lent");
    return answer == 0;
}

/* The library touched memory that it may not: a page behind or before what was lent, or one that can only be read. */
static void touched(int signal) {
    (void)signal;
    differ("it touched memory that it was not lent, or wrote what it may only read");
}

static void catch_touches(void) {
    struct sigaction act = {.sa_handler = touched};
    sigaction(SIGSEGV, &act, NULL);
    sigaction(SIGBUS, &act, NULL);
}

static uint32_t total_weight(void) {
    uint32_t total = 0;
    for (size_t i = 0; i < CALLS; i++)
        total += calls[i].weight;
    return total;
}

static void make(size_t call) {
    current = call;
    given_count = 0;
    number++;
    begin_random_call();
    lend_nothing();
    calls[call].make();
}

static size_t random_call(uint32_t total) {
    uint32_t at = below(total);
    size_t call = 0;
    while (at >= calls[call].weight)
        at -= calls[call++].weight;
    return call;
}

/* How often a call gave each answer that it may give; how many of these it never gave. */
static size_t print_counts(size_t call) {
    size_t missed = 0;
    current = call;
    printf("%-20s", calls[call].name);
    for (uint32_t answer = 0; answer < ANSWERS; answer++)
        if (may_answer(answer)) {
            printf("  %" PRIu32 ": %" PRIu64, answer, counts[call][answer]);
            missed += counts[call][answer] == 0;
        }
    printf("\n");
    return missed;
}

static void print_all(void) {
    size_t missed = 0;
    for (size_t call = 0; call < CALLS; call++)
        missed += print_counts(call);
    if (missed > 0)
        printf("answers that were never given: %zu\n", missed);
    printf("%" PRIu64 " calls, %" PRIu64 " refused, 0 differences\n", number, refused);
}

int main(int count, char **words) {
    if (count != 3)
        return 2;
    uint64_t wanted = strtoull(words[1], NULL, 10);
    seed = strtoull(words[2], NULL, 10);
    printf("seed %" PRIu64 "\n", seed);
    seed_with(seed);
    map_places();
    catch_touches();
    uint32_t total = total_weight();
    model_start(0);
    make(0);
    while (number < wanted)
        make(random_call(total));
    print_all();
    return 0;
}
