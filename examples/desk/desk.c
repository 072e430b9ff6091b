/* A desk for one display or eight, by mouse or by many fingers: track plans, six turnout panels, a lens and an
 * emergency stop. A panel is dragged by its bar and thrown by its button, unless the desk is stopped; the bar of the
 * panel that a press would reach is light. No panel slides over the stop. Every press on the stop stops, whatever else
 * is down, and so does the space bar. It stays stopped until it is reset by a slide.
 *
 * desk [--displays] [--files FOLDER]. Keys: 8 one display or eight, M the panel on top fills its display or comes back,
 * L the lens (wheel or two fingers: its factor), D dimming, O redraws in portions, P the plan's sheet to a file, up and
 * down the throttle, B a wrong desk beside the right one: nothing is marked; the stop has no layer; none. */
#include "desk.h"

#include <stddef.h>
#include <stdio.h>
#include <stdlib.h>
#include <string.h>

static const Who mouse = {SDL_MOUSE_TOUCHID, 0};
const char *const names[] = {"PLAN 1", "PLAN 2", "PLAN 3", "PLAN 4", "PLAN 5", "PLAN 6", "PLAN 7", "PLAN 8",
                             "W1", "W2", "W3", "W4", "W5", "W6", "LENS", "STOP"};
static bool on = true, whole = true; /* whether to go on, and whether all of the window is to be sent */
static Desk desks[2];
Desk *desk = desks;

/* Every call here is one that the library takes: another answer is a mistake of ours. */
void must(const char *call, uint32_t answer) {
    if (answer == ROQ_OK) return;
    fprintf(stderr, "desk: %s was answered by %u\n", call, (unsigned)answer);
    exit(1);
}

bool is_panel(uint32_t id) {
    return id >= W1 && id < LENS;
}

RoqRect rect_of(uint32_t id) {
    return roq_rect_of(&desk->s, id).rect;
}

uint32_t between(int least, int value, int most) {
    return (uint32_t)(value < least ? least : value > most ? most : value);
}

/* ---- Windows and displays ---- */

static void open_window(uint32_t id, RoqPos at, uint32_t w, uint32_t h) {
    must("resize", roq_resize(&desk->s, id, w, h, desk->store, STORE));
    must("move", roq_move(&desk->s, id, at.x, at.y));
    must("show", roq_show(&desk->s, id));
}

/* A plan fills each display and is lowest, so that one lies under every pixel and takes every press that no panel
 * takes. */
static void open_plan(uint32_t plan) {
    RoqRect display = {{plan * W, 0}, {W, H}};
    must("add_display", roq_add_display(&desk->s, display));
    must("move", roq_move(&desk->s, plan, display.pos.x, 0));
    must("maximise", roq_maximise(&desk->s, plan, desk->store, STORE));
    must("show", roq_show(&desk->s, plan));
}

/* A session has no fewer displays than before, so this begins another one. Panels that lie where no display is are
 * brought back by update_dims. */
static void open_desk(uint32_t displays) {
    RoqPos stop = {640, 310};
    desk->displays = displays, desk->lit = NOBODY;
    memset(desk->touches, 0, sizeof desk->touches);
    must("start", roq_start(&desk->s, C));
    for (uint32_t id = 0; id < NOBODY; id++) must("create", roq_create(&desk->s).answer);
    for (uint32_t plan = 0; plan < displays; plan++) open_plan(plan);
    for (uint32_t k = 0; k < PANELS; k++) open_window(desk->order[k], desk->at[desk->order[k]], PW, PH);
    open_window(LENS, desk->at[LENS], LW, LH);
    if (!desk->lens) must("hide", roq_hide(&desk->s, LENS));
    open_window(STOP, stop, SW, SH);
    must("set_layer", roq_set_layer(&desk->s, STOP, desk->fault == LOW_STOP ? 0 : 1)); /* above every panel */
    must("update_dims", roq_update_dims(&desk->s, desk->store, STORE));
    must("dim", roq_dim(&desk->s, desk->dimmed));
    hear(NULL);
    draw_all();
    whole = true;
}

/* Where the panels and the lens are now, for a session that begins. */
void remember(void) {
    uint32_t k = 0;
    for (uint32_t place = 0; place < NOBODY; place++)
        for (uint32_t id = W1; id < LENS; id++) {
            RoqWindow window = roq_window(&desk->s, id);
            if (window.place != place) continue;
            desk->order[k++] = id;
            if (!window.maximised) desk->at[id] = window.rect.pos;
        }
    desk->at[LENS] = rect_of(LENS).pos;
}

/* The panel that has the focus fills its display, or comes back. */
static void maximise(void) {
    uint32_t id = roq_focus(&desk->s);
    RoqWindow window = roq_window(&desk->s, id);
    if (!is_panel(id)) return;
    remember();
    if (!window.maximised) must("maximise", roq_maximise(&desk->s, id, desk->store, STORE));
    if (window.maximised) must("resize", roq_resize(&desk->s, id, PW, PH, desk->store, STORE));
    if (window.maximised) must("move", roq_move(&desk->s, id, desk->at[id].x, desk->at[id].y));
    hear(NULL);
}

/* ---- What changes by itself ---- */

static void tick(uint64_t now) {
    bool blinks = now / BLINK != desk->now / BLINK, signals = now / ASPECT != desk->now / ASPECT;
    desk->now = now;
    if (signals) draw_signals();
    if (signals) draw_status();
    if (blinks && desk->stopped) draw_stop();
}

/* A panel of which less than half is in view is grey. */
static void shade(void) {
    for (uint32_t id = W1; id < LENS; id++) {
        RoqShare share = roq_share(&desk->s, id);
        must("share", share.answer);
        if (desk->covered[id] == (share.percent < 50)) continue;
        desk->covered[id] = !desk->covered[id];
        draw_panel(id);
    }
}

/* ---- SDL's events ---- */

/* A finger that SDL gives as a mouse too comes once: as a finger. So it does with SDL's hint set otherwise. */
static void from_mouse(const SDL_Event *e) {
    bool moves = e->type == SDL_MOUSEMOTION;
    SDL_Point at = point_at((float)(moves ? e->motion.x : e->button.x), (float)(moves ? e->motion.y : e->button.y));
    if (e->motion.which == SDL_TOUCH_MOUSEID) return;
    if (e->type == SDL_MOUSEBUTTONDOWN) press_at(mouse, at.x, at.y); /* any button */
    if (e->type == SDL_MOUSEBUTTONUP) let_go_at(mouse, at.x, at.y);
    if (moves && e->motion.state == 0) forget(mouse); /* no button is down: a release was lost */
    if (moves) move_to(mouse, at.x, at.y);
}

/* The fingers of a trackpad are no points of the window. */
static void from_finger(const SDL_TouchFingerEvent *f) {
    Who who = {f->touchId, f->fingerId};
    SDL_Point at = point_of_finger(f->x, f->y);
    SDL_TouchDeviceType type = SDL_GetTouchDeviceType(f->touchId);
    if (f->touchId == SDL_MOUSE_TOUCHID || type == SDL_TOUCH_DEVICE_INDIRECT_ABSOLUTE || type == SDL_TOUCH_DEVICE_INDIRECT_RELATIVE) return;
    if (f->type == SDL_FINGERDOWN) press_at(who, at.x, at.y);
    if (f->type == SDL_FINGERMOTION) move_to(who, at.x, at.y);
    if (f->type == SDL_FINGERUP) let_go_at(who, at.x, at.y);
}

/* Without the focus no release may come. */
static void from_window(const SDL_WindowEvent *e) {
    if (e->event == SDL_WINDOWEVENT_FOCUS_LOST) forget_all();
    if (e->event == SDL_WINDOWEVENT_LEAVE) light(NOBODY);
    if (e->event == SDL_WINDOWEVENT_SIZE_CHANGED || e->event == SDL_WINDOWEVENT_EXPOSED) whole = true;
}

static void zoom(bool in) {
    desk->factor *= in ? 2 : 0.5;
    desk->factor = desk->factor > 4 ? 4 : desk->factor < 0.25 ? 0.25 : desk->factor;
}

/* Two fingers that went apart or together by a tenth of the window. */
static void pinch(const SDL_MultiGestureEvent *g) {
    desk->pinched += g->dDist;
    if (desk->pinched > -0.1f && desk->pinched < 0.1f) return;
    zoom(desk->pinched > 0);
    desk->pinched = 0;
}

static void from_key(SDL_Keycode code) {
    if (code == SDLK_SPACE) set_stopped(true);
    if (code == SDLK_8 && desk->columns == 1) remember(), open_desk(desk->displays == 1 ? DISPLAYS : 1);
    if (code == SDLK_m) maximise();
    if (code == SDLK_d) must("dim", roq_dim(&desk->s, desk->dimmed = !desk->dimmed));
    if (code == SDLK_l) must("lens", (desk->lens = !desk->lens) ? roq_show(&desk->s, LENS) : roq_hide(&desk->s, LENS));
    if (code == SDLK_o) desk->portions = !desk->portions;
    if (code == SDLK_p) print_sheet();
    if (code == SDLK_UP || code == SDLK_DOWN) key((uint32_t)code);
}

/* Another wrong desk beside the right one, or none: as the right one is, and from then on with the same events. */
static void next_fault(void) {
    Fault fault = (desks[1].fault + 1) % FAULTS;
    if (desk->displays > 1) return;
    remember();
    desk->columns = fault == NONE ? 1 : 2;
    memcpy(desks + 1, desks, offsetof(Desk, s)); /* its session begins anew */
    desk = desks + 1;
    desk->fault = fault, desk->column = 1, desk->files = NULL;
    if (fault != NONE) open_desk(1);
    desk = desks;
    widen(desk->columns);
    whole = true;
}

static void happened_on_desk(const SDL_Event *e) {
    if (e->type == SDL_MOUSEMOTION || e->type == SDL_MOUSEBUTTONDOWN || e->type == SDL_MOUSEBUTTONUP) from_mouse(e);
    if (e->type == SDL_FINGERDOWN || e->type == SDL_FINGERMOTION || e->type == SDL_FINGERUP) from_finger(&e->tfinger);
    if (e->type == SDL_WINDOWEVENT) from_window(&e->window);
    if (e->type == SDL_KEYDOWN) from_key(e->key.keysym.sym);
    if (e->type == SDL_MOUSEWHEEL && e->wheel.y != 0) zoom(e->wheel.y > 0);
    if (e->type == SDL_MULTIGESTURE) pinch(&e->mgesture);
}

static void happened(const SDL_Event *e) {
    Desk *before = desk;
    for (desk = desks; desk < desks + desks[0].columns; desk++) happened_on_desk(e);
    desk = desks;
    if (e->type == SDL_KEYDOWN && e->key.keysym.sym == SDLK_b) next_fault();
    if (e->type == SDL_QUIT) on = false;
    desk = before;
}

static void hear_events(void) {
    SDL_Event e;
    while (on && SDL_PollEvent(&e)) happened(&e);
}

/* Between two portions keys alone are heard: a drag would send the walk back to its first window, over and over. */
static void hear_keys(void) {
    SDL_Event e;
    SDL_PumpEvents();
    while (on && SDL_PeepEvents(&e, 1, SDL_GETEVENT, SDL_KEYDOWN, SDL_KEYDOWN) > 0) happened(&e);
}

static void show_desks(void) {
    bool all = whole;
    whole = false;
    for (desk = desks; desk < desks + desks[0].columns; desk++) shade(), draw_lens(), show(all, hear_keys);
    desk = desks;
}

static void tick_desks(uint64_t now) {
    for (desk = desks; desk < desks + desks[0].columns; desk++) tick(now);
    desk = desks;
}

/* How many displays to begin with; 0 where a word is not known. */
static uint32_t words(int count, char **word) {
    uint32_t displays = 1;
    for (int i = 1; i < count; i++) {
        if (strcmp(word[i], "--displays") == 0) displays = DISPLAYS;
        else if (strcmp(word[i], "--files") == 0 && i + 1 < count) desk->files = word[++i];
        else return 0;
    }
    return displays;
}

/* Whether the archive that is linked is one that the header may be used with. */
static bool is_of_header(void) {
    return roq_version() / 1000000 == ROQ_VERSION_MAJOR && roq_version() >= ROQ_VERSION && roq_session_size() == sizeof desk->s;
}

int main(int count, char **word) {
    if (!is_of_header()) return fprintf(stderr, "desk: header and archive do not belong together\n"), 1;
    SDL_Event e;
    uint32_t displays = words(count, word);
    if (displays == 0) return fputs("it is called as desk [--displays] [--files FOLDER]\n", stderr), 2;
    SDL_SetHint(SDL_HINT_TOUCH_MOUSE_EVENTS, "0");
    SDL_SetHint(SDL_HINT_MOUSE_FOCUS_CLICKTHROUGH, "1"); /* else SDL keeps a press that gives the window the focus */
    SDL_SetHint(SDL_HINT_FRAMEBUFFER_ACCELERATION, "0"); /* no texture of the whole window on the way to the screen */
    if (SDL_Init(SDL_INIT_VIDEO) != 0 || !open_screen()) return fprintf(stderr, "desk: no window can be opened: %s\n", SDL_GetError()), 1;
    for (uint32_t k = 0; k < PANELS; k++) desk->order[k] = W1 + k, desk->at[W1 + k] = (RoqPos){24 + k % 3 * 172, 230 + k / 3 * 122};
    desk->columns = 1, desk->factor = 2, desk->at[LENS] = (RoqPos){600, 170};
    load_layout();
    open_desk(displays);
    while (on) {
        show_desks();
        if (desk->unsaved) save_layout(); /* once it is seen */
        bool got = SDL_WaitEventTimeout(&e, BLINK - (int)(SDL_GetTicks64() % BLINK));
        tick_desks(SDL_GetTicks64());
        if (got) happened(&e);
        hear_events();
    }
    save_layout();
    SDL_Quit();
    return 0;
}
