/* Linked into the desk by its test, since xdotool has no fingers, and a test should not wait. It takes lines from
 * standard input, beside what the X server sends:
 *
 *     down|move|up FINGER X Y    a finger, at a pixel of the window
 *     as-mouse X Y               a finger's press as SDL gives it a second time, as one of a mouse
 *     motion X Y                 the mouse, with no button down
 *     gesture PERCENT            two fingers go apart by so much of the window, or together
 *     time MILLISECONDS          the desk's clock goes on; else it stands still
 *     ready                      "ready" is written once all before it is done and shown
 *
 * Lines that come in one piece have happened together. */
#include <SDL.h>
#include <stdio.h>
#include <string.h>
#include <unistd.h>

int __real_SDL_PollEvent(SDL_Event *e);

static char lines[4096];
static size_t length;
static Uint64 clock_now;

Uint64 __wrap_SDL_GetTicks64(void) {
    return clock_now;
}

/* The next line, or NULL if none is there. */
static const char *line(void) {
    static char one[sizeof lines];
    char *end = memchr(lines, '\n', length);
    if (end == NULL) return NULL;
    size_t size = (size_t)(end - lines) + 1;
    memcpy(one, lines, size);
    one[size - 1] = 0;
    memmove(lines, end + 1, length -= size);
    return one;
}

static SDL_bool finger(const char *text, SDL_Event *e) {
    char kind[8];
    long long id;
    int x, y, w, h;
    if (sscanf(text, "%7s %lld %d %d", kind, &id, &x, &y) != 4) return SDL_FALSE;
    Uint32 type = !strcmp(kind, "down") ? SDL_FINGERDOWN : !strcmp(kind, "up") ? SDL_FINGERUP : SDL_FINGERMOTION;
    SDL_GetWindowSize(SDL_GetWindowFromID(1), &w, &h);
    /* a point in a pixel, and in none of the edges of eighths of it, as a part of the window */
    e->tfinger = (SDL_TouchFingerEvent){.type = type, .touchId = 5, .fingerId = id, .x = ((float)x + 0.55f) / (float)w, .y = ((float)y + 0.55f) / (float)h};
    return SDL_TRUE;
}

static SDL_bool mouse(const char *text, SDL_Event *e) {
    int x, y;
    SDL_MouseButtonEvent button = {.type = SDL_MOUSEBUTTONDOWN, .which = SDL_TOUCH_MOUSEID, .button = 1};
    SDL_MouseMotionEvent motion = {.type = SDL_MOUSEMOTION};
    SDL_MultiGestureEvent gesture = {.type = SDL_MULTIGESTURE, .numFingers = 2};
    if (sscanf(text, "as-mouse %d %d", &x, &y) == 2) return button.x = x, button.y = y, e->button = button, SDL_TRUE;
    if (sscanf(text, "gesture %d", &x) == 1) return gesture.dDist = (float)x / 100, e->mgesture = gesture, SDL_TRUE;
    if (sscanf(text, "motion %d %d", &x, &y) == 2) return motion.x = x, motion.y = y, e->motion = motion, SDL_TRUE;
    return SDL_FALSE;
}

/* Only in the last place: what the X server has sent comes first. */
static SDL_bool from_lines(SDL_Event *e) {
    const char *text = line();
    if (text == NULL) return SDL_FALSE;
    return finger(text, e) || mouse(text, e);
}

int __wrap_SDL_PollEvent(SDL_Event *e) {
    if (__real_SDL_PollEvent(e)) return 1;
    if (length == 0 || lines[0] == 'r' || lines[0] == 't') return 0; /* ready and time wait until all is shown */
    return e == NULL || from_lines(e);
}

/* The X server is asked, and so has sent before its answer what happened before: whether that is something. The line
 * "ready" is taken back then. */
static int sent_all(SDL_Event *e) {
    static const char again[] = "ready\n";
    SDL_Rect none = {0, 0, 0, 0};
    SDL_UpdateWindowSurfaceRects(SDL_GetWindowFromID(1), &none, 1);
    if (!__real_SDL_PollEvent(e)) return 0;
    memmove(lines + sizeof again - 1, lines, length);
    memcpy(lines, again, sizeof again - 1);
    length += sizeof again - 1;
    return 1;
}

int __wrap_SDL_WaitEventTimeout(SDL_Event *e, int most) {
    (void)most;
    while (!__wrap_SDL_PollEvent(e)) {
        unsigned long more = 0;
        const char *text = length ? line() : NULL;
        if (text && sscanf(text, "time %lu", &more) == 1) return clock_now += more, 0;
        if (text && sent_all(e)) return 1;
        if (text) puts("ready"), fflush(stdout);
        if (text) continue;
        ssize_t got = read(STDIN_FILENO, lines + length, sizeof lines - length);
        if (got <= 0) return e->type = SDL_QUIT, 1;
        length += (size_t)got;
    }
    return 1;
}
