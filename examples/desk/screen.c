/* From the library's screen to the window, and from a point of the window to the screen. What a redraw is about to
 * write is what is sent afterwards. */
#include "desk.h"

static SDL_Window *window;

bool open_screen(void) {
    window = SDL_CreateWindow("desk", SDL_WINDOWPOS_CENTERED, SDL_WINDOWPOS_CENTERED, W, H, SDL_WINDOW_RESIZABLE);
    return window != NULL;
}

void widen(int columns) {
    SDL_SetWindowSize(window, columns * W, H);
}

/* Where in the window the screen is seen: as large as it goes, in the middle of its column. */
static SDL_Rect view(void) {
    int w, h, width = (int)desk->displays * W;
    SDL_GetWindowSize(window, &w, &h);
    w /= desk->columns;
    SDL_Rect r = {0, 0, w, w * H / width};
    if (r.h > h) r.w = h * width / H, r.h = h;
    r.w = r.w < 1 ? 1 : r.w, r.h = r.h < 1 ? 1 : r.h;
    r.x = desk->column * w + (w - r.w) / 2, r.y = (h - r.h) / 2;
    return r;
}

/* The point of the screen that is seen at a point of the window. It is the same for two desks side by side, in
 * whichever of them it is. It may lie beside the screen. */
SDL_Point point_at(float x, float y) {
    int w, h;
    SDL_Rect seen = view();
    SDL_GetWindowSize(window, &w, &h);
    float column = (float)w / (float)desk->columns;
    if (desk->columns > 1 && x >= column) x -= column;
    x -= (float)seen.x - (float)desk->column * column, y -= (float)seen.y;
    SDL_Point at = {(int)(x * (float)(desk->displays * W) / (float)seen.w), (int)(y * H / (float)seen.h)};
    return at;
}

/* A finger's point is a part of the window, whatever size that has. */
SDL_Point point_of_finger(float x, float y) {
    int w, h;
    SDL_GetWindowSize(window, &w, &h);
    return point_at(x * (float)w, y * (float)h);
}

/* A part of the screen, where a pixel of it is one of the window; else all of it. */
static void send(RoqRect part, bool whole) {
    int width = (int)desk->displays * W;
    SDL_Surface *to = SDL_GetWindowSurface(window);
    SDL_Surface *from = SDL_CreateRGBSurfaceWithFormatFrom(desk->screen, width, H, 32, 4 * width, SDL_PIXELFORMAT_RGB888);
    SDL_Rect seen = view(), what = {(int)part.pos.x, (int)part.pos.y, (int)part.dims.w, (int)part.dims.h};
    SDL_Rect where = {seen.x + what.x, seen.y + what.y, what.w, what.h};
    if (whole || seen.w != width || seen.h != H) what = (SDL_Rect){0, 0, width, H}, where = seen;
    if (whole && desk->column == 0) SDL_FillRect(to, NULL, 0);
    SDL_BlitScaled(from, &what, to, &where);
    SDL_FreeSurface(from);
    if (whole) SDL_UpdateWindowSurface(window);
    else SDL_UpdateWindowSurfaceRects(window, &where, 1);
    desk->sent += 4 * (size_t)where.w * (size_t)where.h;
}

static void redraw(uint32_t which) {
    uint32_t width = desk->displays * W;
    RoqRect all = {{0, 0}, {width, H}};
    RoqStale stale = roq_stale(&desk->s, which, all);
    must("stale", stale.answer);
    if (which == ROQ_PORTION) must("portion", roq_portion(&desk->s, width, H, desk->store, STORE, desk->screen, width * H));
    else must("redraw", roq_redraw(&desk->s, false, width, H, desk->store, STORE, desk->screen, width * H));
    if (stale.due) send(stale.rect, false);
}

/* Where it is asked for, window by window: a throttle's key does not wait until all of them are drawn. */
void show(bool whole, void (*between_portions)(void)) {
    if (!desk->portions) redraw(ROQ_REDRAW);
    else must("begin", roq_begin(&desk->s, false));
    while (desk->portions && roq_state(&desk->s).walk) {
        redraw(ROQ_PORTION);
        between_portions();
    }
    if (whole) send((RoqRect){{0, 0}, {0, 0}}, true);
}
