/* Calls as lines of a call script (docs/CALL-SCRIPT.md). A call's word is its name without roq_, and its numbers come
 * in the header's order with the contents of its arrays behind them: what differs from that is written here. */
#include "script.h"

#include <inttypes.h>
#include <stdio.h>
#include <string.h>

/* Calls with another word, or that are lent a list of another length than `replay` lends by itself. */
static const struct line {
    const char *name, *word, *lend;
    size_t lent;
} lines[] = {
    {"roq_set_layer", "layer", NULL, 0},           {"roq_add_display", "display", NULL, 0},
    {"roq_not_intersect", "pieces", NULL, 0},      {"roq_state", "session", NULL, 0},
    {"roq_visible", "visible", "lend-list", 1984}, {"roq_hits", "hits", "lend-list", 96},
    {"roq_sheet", "sheet", "lend-sheet", 2048},    {"roq_read_sheet", "read-sheet", "lend-list", 7812},
};

static uint64_t room = 1; /* C */

static bool is(const char *name, const char *other) { return strcmp(name, other) == 0; }

static void numbers(const struct play *p, size_t from, size_t to) {
    for (size_t i = from; i < to; i++)
        printf(" %" PRId64, p->words[i]);
}

static void elements(const struct array *a) {
    for (size_t i = 0; i < a->len; i++)
        printf(" %" PRIu32, a->each == 1 ? ((const uint8_t *)a->at)[i] : ((const uint32_t *)a->at)[i]);
}

/* An event's words are x, y, value, dx, dy, kind, button, count. */
static bool write_route(const struct play *p) {
    static const char *const words[] = {"",     "resized",   "keydown",   "keyup",      "keyfire",
                                        "text", "mousemove", "mousedown", "mouseclick", "mouseup"};
    int64_t kind = p->words[5];
    if (kind < ROQ_RESIZE || kind > ROQ_MOUSE_UP)
        return false;
    fputs(words[kind], stdout);
    if (kind >= ROQ_MOUSE_MOVE)
        numbers(p, 0, 2);
    else if (kind != ROQ_RESIZE)
        numbers(p, 2, 3);
    if (kind >= ROQ_MOUSE_DOWN)
        numbers(p, 6, kind == ROQ_MOUSE_CLICK ? 8 : 7);
    return true;
}

/* Of `who` A is the value of a key or a text, else x, and B is y. */
static bool write_who(const struct play *p) {
    int64_t kind = p->words[5];
    if (kind < ROQ_RESIZE || kind > ROQ_MOUSE_UP)
        return false;
    size_t first = kind > ROQ_RESIZE && kind < ROQ_MOUSE_MOVE ? 2 : 0;
    printf("who %" PRId64, kind);
    numbers(p, first, first + 1);
    numbers(p, 1, 2);
    numbers(p, 6, 8);
    return true;
}

/* Its words are the id, corner and factor in halves, fit, and the target's size. */
static bool write_look(const struct play *p) {
    bool fits = p->words[7] != 0;
    uint64_t pixels = (uint64_t)p->words[8] * (uint64_t)p->words[9];
    if (p->arrays[0].len != pixels)
        printf("lend-target %zu\n", p->arrays[0].len);
    fputs(fits ? "look-fit" : "look", stdout);
    numbers(p, 0, fits ? 5 : 7);
    numbers(p, 8, 10);
    return true;
}

static bool write_region(const struct play *p) {
    fputs("region", stdout);
    numbers(p, 1, 5);
    numbers(p, 0, 1);
    elements(&p->arrays[0]);
    return true;
}

static bool write_set_scanline(const struct play *p) {
    fputs("set-scanline", stdout);
    numbers(p, 0, 5);
    printf(" %zu", p->arrays[1].len);
    elements(&p->arrays[1]);
    elements(&p->arrays[0]);
    return true;
}

static const struct special {
    const char *name;
    bool (*write)(const struct play *);
} specials[] = {
    {"roq_route", write_route},
    {"roq_route_to", write_who},
    {"roq_look", write_look},
    {"roq_region", write_region},
    {"roq_set_scanline", write_set_scanline},
};

/* Bare pixels are written to where they lie, so that their contents are a line's numbers; other arrays that are written
 * are only lent. */
static void write_arrays(const struct play *p) {
    for (size_t i = 0; i < p->array_count; i++)
        if (!p->arrays[i].is_written || is(p->known->name, "roq_fill_scanline"))
            elements(&p->arrays[i]);
}

static bool write_plain(const struct play *p) {
    const char *name = p->known->name;
    const struct line *found = NULL;
    for (size_t i = 0; i < sizeof lines / sizeof *lines; i++)
        if (is(lines[i].name, name))
            found = &lines[i];
    const struct array *last = &p->arrays[p->array_count == 0 ? 0 : p->array_count - 1];
    if (found != NULL && found->lend != NULL && last->len != found->lent)
        printf("%s %zu\n", found->lend, last->len);
    for (const char *c = found != NULL ? found->word : name + strlen("roq_"); *c != 0; c++)
        putchar(*c == '_' ? '-' : *c);
    numbers(p, 0, p->word_count);
    write_arrays(p);
    return true;
}

/* The words of redraw are forced, width, height, those of portion only these two. */
static void write_lends(const struct play *p) {
    if (p->has_store && p->store_len != 16 * room)
        printf("lend %" PRIu64 "\n", p->store_len);
    if (p->screen == NULL || p->word_count < 2)
        return;
    uint64_t pixels = (uint64_t)p->words[p->word_count - 2] * (uint64_t)p->words[p->word_count - 1];
    if (p->screen_len != pixels)
        printf("lend-screen %" PRIu64 "\n", p->screen_len);
}

static bool fits_in_words(const struct play *p) {
    for (size_t i = 0; i < p->word_count; i++)
        if (p->words[i] < INT16_MIN || p->words[i] > UINT32_MAX)
            return false;
    return true;
}

/* Whether a call is of the session that the script has, which is the first. */
static bool is_ours(const struct play *p) {
    static bool has_session;
    static uint32_t session;
    if (!p->has_session)
        return true;
    if (!has_session && !is(p->known->name, "roq_start"))
        fail(2, "a call script begins with a start, which the file does not have of this session");
    if (!has_session)
        session = p->session;
    has_session = true;
    return p->session == session;
}

static bool write_line(const struct play *p) {
    bool (*write)(const struct play *) = write_plain;
    for (size_t i = 0; i < sizeof specials / sizeof *specials; i++)
        if (is(specials[i].name, p->known->name))
            write = specials[i].write;
    return write(p);
}

void script_call(const struct play *p) {
    bool other_store = p->has_store && p->store_len != 16 * room;
    bool written = is_ours(p) && fits_in_words(p) && !is(p->known->name, "roq_rect_of");
    if (written)
        write_lends(p);
    if (!written || !write_line(p)) {
        printf("# no line: %s", p->known->name);
        numbers(p, 0, p->word_count);
    }
    putchar('\n');
    if (written && other_store)
        printf("lend %" PRIu64 "\n", 16 * room);
}

void script_given(const struct play *p, const struct play *given, uint64_t number) {
    if (is(p->known->name, "roq_start") && is_ours(p))
        room = given->words[0] == 0 ? (uint64_t)p->words[0] : 1;
    printf("# record %" PRIu64 " gave", number);
    numbers(given, 0, given->word_count);
    putchar('\n');
}
