/* What the files of include/hostile share: random numbers, lent memory, the model of a session, and how a call is
 * judged. */
#ifndef HOSTILE_H
#define HOSTILE_H

#include "roqshyn.h"

/* ---- Random numbers: hostile_random.c ----
 * No expression asks for two of them where C leaves their order open, so that a seed gives the same calls with every
 * compiler. */

void seed_with(uint64_t seed);
uint64_t random_bits(void);
uint32_t below(uint32_t bound);
bool one_in(uint32_t bound);
uint32_t often_0(uint32_t bound);
/* Before each call. Some are rough: then an argument is odd one time in two, else one time in `bound`. */
void begin_random_call(void);
bool odd_one_in(uint32_t bound);
/* Any number: a small one, one beside a limit of the header, or 32 random bits. */
uint32_t wild(void);
size_t wild_stride(void);
uint32_t id_of_window(void);
uint32_t coordinate(void);
RoqPos position(void);
uint32_t side(void);
RoqDims sides(void);
RoqRect area(void);
/* A rectangle for bare geometry, whose sums may pass 32 bits. */
RoqRect bare_rect(void);
/* A length that is mostly the one asked for, and at most `most`. */
size_t length_near(uint64_t exact, size_t most);

/* ---- Lent memory: hostile_memory.c ---- */

/* Each place is memory between two pages that cannot be touched, seen twice: to be written, and only to be read. */
enum place { SESSION, STORE, SCREEN, LIST, DATA, PLACES };

void map_places(void);
/* How many elements of four bytes a place has. */
size_t room_of(enum place place);
/* Begins a call: nothing is lent yet, and the session may have moved. */
void lend_nothing(void);
/* Lends an array, one of a place in a call: at its end, at its beginning or between; of length 0 also null. Contents
 * are copied into it, or it keeps what it has. */
uint32_t *lend(enum place place, size_t len);
const uint32_t *lend_to_read(enum place place, size_t len, const uint32_t *contents);
uint8_t *lend_bytes(enum place place, size_t len);
const uint8_t *lend_bytes_to_read(enum place place, size_t len, const uint8_t *contents);
/* The session, to be written and only to be read. */
RoqSession *session(void);
const RoqSession *session_to_read(void);
/* What the array of a place holds now, also where null was lent, and what it held before the call. */
const void *lent_now(enum place place);
const void *lent_before(enum place place);
/* Whether memory is as before the call: what was lent and around it; around it; an array behind its first bytes, or
 * outside a part of it. */
bool all_kept(void);
bool surroundings_kept(void);
bool kept_from(enum place place, size_t bytes);
bool kept_outside(enum place place, size_t from, size_t to);
/* How many numbers of an array differ from before. */
size_t altered_in(enum place place);

/* ---- The model of a session: hostile_model.c ---- */

struct window {
    bool used, maximised, marked, moved;
    uint32_t layer, queued;
    RoqRect rect;
    RoqEvent queue[16];
    RoqPos cursor, popped;
};

struct model {
    uint32_t c, focus, shown, press_owner, displays, walked;
    bool owed, walking, full, dimmed;
    uint32_t order[16];
    struct window windows[16];
    RoqRect display[8];
};
extern struct model model;

/* No window: what the model has for the owner of a press, and roq_hits and roq_state for nobody. */
enum { NOBODY = 16 };

bool in_use(uint32_t id);
bool is_shown(uint32_t id);
/* Its place in the order, lowest first. */
uint32_t place_of(uint32_t id);
bool has(RoqRect r, uint32_t x, uint32_t y);
uint32_t topmost_at(uint32_t x, uint32_t y);
/* The display that a position is on, or else the closest; whether it is on it. */
RoqRect display_for(uint32_t x, uint32_t y, bool *on);
/* What a window takes that is maximised: the display that its position is on, or (0,0,0,0). */
RoqRect maximised_rect(uint32_t id);
void model_start(uint32_t c);
uint32_t model_create(void);
void model_show(uint32_t id);
void model_raise(uint32_t id);
void model_hide(uint32_t id);
void model_drop(uint32_t id);
void model_mark(uint32_t id);
void model_move(uint32_t id, uint32_t x, uint32_t y);
void model_drag(uint32_t id, uint32_t x, uint32_t y);
void model_set_layer(uint32_t id, uint32_t layer);
void model_resize(uint32_t id, RoqDims dims);
void model_maximise(uint32_t id);
void model_update_dims(void);
/* The window that an event goes to, or NOBODY. */
uint32_t taker_of(RoqEvent e);
/* The event as its window gets it: only with the fields that its kind has. */
RoqEvent handed(RoqEvent e, RoqRect r);
void model_route(RoqEvent e);
RoqEvent model_pop(uint32_t id);
void model_redraw(void);
void model_begin(bool forced);
void model_portion(void);
void model_dim(bool on);

/* ---- Sheets: hostile_sheets.c ---- */

/* How many rectangles a valid sheet has, and how many pixels; -1 where the bytes are none. */
long rectangles_of_sheet(const uint8_t *bytes, size_t len, uint64_t *pixels);

/* ---- Judging a call: hostile.c ---- */

/* Keeps the arguments of this call, for what is printed where it differs. */
void given(const uint64_t *arguments, size_t count);
#define GIVEN(...) given((const uint64_t[]){__VA_ARGS__}, sizeof((const uint64_t[]){__VA_ARGS__}) / sizeof(uint64_t))
/* Compares an answer with the one that is due. */
void answered(uint32_t answer, uint32_t due);
/* The same, and sees that a refused call changed nothing, and another nothing beside what was lent; whether it was
 * accepted. */
bool accepted(uint32_t answer, uint32_t due);
/* Ends the program where something that this call promises is not so. */
void expect(bool so, const char *what);

#endif
