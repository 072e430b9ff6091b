/* The desk's parts. draw.c paints windows; touch.c has fingers and the mouse, the emergency stop and the turnouts;
 * keep.c the files; screen.c the way to the screen; desk.c the windows and SDL's events. */
#ifndef DESK_H
#define DESK_H

#include "roqshyn.h"

#include <SDL.h>

enum { W = 800, H = 480, DISPLAYS = ROQ_DISPLAYS, C = W * H, STORE = ROQ_WINDOWS * C }; /* a display; a window is at most as large */
/* Windows: a plan for each display, the panels W1 to W6, the lens and the emergency stop. */
enum { PLAN = 0, W1 = DISPLAYS, PANELS = 6, LENS = W1 + PANELS, STOP = LENS + 1, NOBODY = ROQ_NOBODY };
enum { PW = 148, PH = 108, TOP = 26, BX = 14, BY = 40 };              /* a panel, its bar, where its button begins */
enum { SW = 112, SH = 72, END = 32, LEFT = 6, RIGHT = SW - 6 - END }; /* the stop, and where its two ends begin */
enum { LW = 164, LH = 124, EDGE = 4 };                                /* the lens and its frame */
enum { TOUCHES = 16, TIMES = 4096, BLINK = 500, ASPECT = 2000, SIGNALS = 3 }; /* times in milliseconds */

/* What of a window a touch holds. */
typedef enum Part { NOTHING, BAR, BUTTON, KNOB } Part;

/* Who touches: a finger of a device, or the mouse. */
typedef struct Who {
    SDL_TouchID device;
    SDL_FingerID finger;
} Who;

/* A finger or the mouse that is down: the window that took its press, and where in it. */
typedef struct Touch {
    bool down;
    Who who;
    uint32_t window, x, y;
    Part part;
    unsigned press; /* the number of its press */
} Touch;

/* What is wrong with the desk that is seen beside the right one: nothing is marked, or the stop has no layer of its
 * own. */
typedef enum Fault { NONE, UNMARKED, LOW_STOP, FAULTS } Fault;

typedef struct Desk {
    Fault fault;
    int column, columns;           /* its place in the window, from the left */
    uint32_t displays;             /* 1 or 8: so many are in use */
    RoqPos at[NOBODY];             /* where a panel or the lens is opened, and comes back to after it was maximised */
    uint32_t order[PANELS];        /* the panels, lowest first */
    bool reverse[NOBODY], stopped; /* how the turnouts lie: normal (+) or reverse (-) */
    bool covered[NOBODY];          /* less than half of it is in view */
    bool lens, dimmed, portions;
    double factor;                 /* of the lens */
    float pinched;                 /* how far two fingers went apart since it changed */
    uint32_t lit, throttle;        /* the panel under the last event; notches */
    Touch touches[TOUCHES];
    unsigned presses;
    uint64_t now;
    char pressed[48];              /* the last press, for the status line */
    uint32_t times[TIMES];         /* when the last events were */
    size_t events;                 /* how many of them there are */
    size_t altered, sent;          /* pixels that were altered and bytes that were sent since the last status line */
    const char *files;             /* a folder */
    bool unsaved;                  /* it stopped or was reset, and the layout is still to be written */
    RoqSession s;                  /* from here on the library alone writes (duty D8) */
    uint32_t store[STORE], screen[DISPLAYS * W * H];
} Desk;

extern Desk *desk; /* the one that is meant: the desk, or a wrong one beside it */
extern const char *const names[];

void must(const char *call, uint32_t answer);
bool is_panel(uint32_t id);
RoqRect rect_of(uint32_t id);
uint32_t between(int least, int value, int most);
void remember(void);

/* draw.c */
void draw_all(void);
void draw_turnout(uint32_t id);
void draw_signals(void);
void draw_panel(uint32_t id);
void draw_stop(void);
void draw_lens(void);
void draw_status(void);

/* touch.c */
void set_stopped(bool on);
void press_at(Who who, int x, int y);
void move_to(Who who, int x, int y);
void let_go_at(Who who, int x, int y);
void key(uint32_t value);
void hear(Touch *t);
void forget(Who who);
void forget_all(void);
void light(uint32_t id);
bool is_held(uint32_t id);

/* screen.c */
bool open_screen(void);
void widen(int columns);
SDL_Point point_at(float x, float y);
SDL_Point point_of_finger(float x, float y);
void show(bool whole, void (*between_portions)(void));

/* keep.c */
void save_layout(void);
void load_layout(void);
void print_sheet(void);

#endif
