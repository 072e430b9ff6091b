/* The window group for programs in C and C++: link crates/roqshyn/out/libroqshyn.a.
 *
 * Answers. Every call answers 0, or the number of the first question of document 01 that it answers with a no
 * (duty D14). Then it has changed no session, store, list, buffer, screen or pixel; only a refused roq_start makes a
 * session all the same. ROQ_OK and the names that begin with ROQ_ERROR_ stand for these numbers. "Asks" below names the
 * questions of a call, in their order:
 *    1  the lent store has exactly 16 x C pixels
 *    2  C is 1 to 1,048,576
 *    3  the id is below 16 and in use
 *    4  an id is unused
 *    5  coordinates and sizes are at most 32,767
 *    6  w x h is at most C
 *    7  the stride is at least 1
 *    8  the screen's width and height are 1 to 32,767, its length their product
 *    9  the lent list holds 4 numbers for each visible rectangle
 *   10  there is an event to pop
 *   11  there is a window to take the event
 *   12  its queue has a free place
 *   13  the part lies in the pixels
 *   14  x + w and y + h are at most 4,294,967,295
 *   15  the display has pixels, its x + w and y + h are at most 32,767
 *   16  fewer than eight displays are present
 *   17  the layer is at most 1
 *   18  the bytes are a valid sheet
 *   19  the buffer holds the sheet, or the list 4 numbers for each of its rectangles
 *   20  a walk was begun, and is neither over nor dropped
 *   21  the event is no KeyFire, asked before every other
 *   22  the look fits, or its factor is 0.25, 0.5, 1, 2 or 4 and its corner in quarters, 0 to 32,767
 *   23  the target's width and height are 1 to 32,767, its length their product
 *   24  the window is shown and has pixels
 *   25  at most 32 points, each x with its y, and 3 numbers for each in the list
 *   26  the run has at most 4,096 times
 *   27  no time is below the one before it
 *   28  the call that is meant is 0, 1 or 2
 *
 * Sessions. A session is one that roq_start, also a refused one, and these calls made, in the caller's memory. It may
 * be copied and moved as a whole; nobody else writes it (duty D12). One thread at a time uses it (duty D3). This and
 * the next paragraph are all that a call asks of its caller: every number may be anything, and is answered.
 *
 * Lent memory. A pointer and the number after it are an array of that many pixels, numbers or bytes. It is lent for the
 * call alone: nothing of it is kept. It is there and aligned (duty D4). Where the number is 0 the pointer may be null,
 * as that of an empty std::vector is: nothing is read or written there. No two arrays of a call overlap, nor do they
 * overlap the session, unless both are only read (const) (duty D5). A bool is 0 or 1 (duty D6).
 *
 * The store has 16 x C pixels. Window i has the C from i x C on, in rows of its own width. C is at most 1,048,576, and
 * so is w x h of a window: a display of 1,920 by 1,080 has 2,073,600 pixels and cannot be one window. Two windows of
 * 960 by 1,080 side by side can, and two displays of that size, on which windows are maximised.
 *
 * The screen has width x height pixels. Where its rows have padding, as a buffer of DRM may, the width that is handed
 * over is the pitch in pixels, and the length the pitch x height: what lies beside the windows keeps its value, the
 * padding too.
 *
 * When the screen is right. After a redraw each pixel under a shown window is that of its topmost window, if three
 * things are kept. A window is marked after its last write (roq_fill, roq_blit): what is written and not marked may
 * stay undrawn (duty D7). Every redraw and portion is lent the same screen, at one size, since it writes only what it
 * has to; forced, it writes all that is seen. Nobody else writes store or screen: a copy of the session that makes
 * calls of its own is somebody else (duty D8). A pixel under no shown window keeps its old value, also in a full
 * redraw, so keep a window of the screen's size lowest, such as the plan, or several that cover it (duty D9). A full
 * redraw is owed, which draws everything, in a new session; after each move, resize, maximise and update_dims that is
 * accepted; and after each show, hide, change of a shown window's layer and switch of dimming that changes something. A
 * raise of a shown window has the next redraw draw that window too, a drag also what it uncovered, and not everything;
 * each owes a full redraw only where one is owed already or a walk is on. Neither stands for the mark after a write.
 *
 * Displays. Yard and station screens are rectangles of the one screen, up to eight of them in one session; they may
 * overlap, and a position on several is on the first that was added. A display is only where windows go when they are
 * maximised or updated: a redraw draws on the whole screen, beside displays too. None is ever taken away; to begin anew
 * is a roq_start. A window fills one display, so C is at least the pixels of the largest one. After displays were
 * added, roq_update_dims brings the windows back that lie where nobody sees them.
 *
 * Order of events. Each window has a queue of 16 events, and beside it one MouseMove that is not read yet, which a
 * later one replaces. A pop gives what is queued, oldest first, and only then the move, whichever came first: where
 * that order matters, pop after each route. Each new size queues a Resize, which is therefore the first event of a new
 * window. Hide and show keep a queue; drop does not.
 *
 * Moves. The point of a MouseMove is relative to its window, and dx and dy are the difference of two such points:
 * this one and the one popped before it, or (0,0) the first time. They are no measure for a drag once the window
 * moves. To drag a window, remember the point at which it was grabbed, and roq_drag it to its position plus the new
 * point minus the grabbed point. A move goes to the topmost window at its point, so a window that is dragged does not
 * hear of a finger that has left it; hand it the move's point, relative to it, whoever popped it.
 *
 * Drag or move. roq_drag and roq_move put a window at the same place; they differ in what the next redraw draws. Drag
 * where a finger moves a panel: beside what is marked, its old and its new place are drawn, and nothing else. Move
 * where much changes anyway: everything is drawn. Where a full redraw is owed or a walk is on, a drag owes a full
 * redraw, as a move does, and costs as much: drags after a move, a resize or a show gain nothing until the next
 * redraw. A drag of a hidden window owes nothing; a move of one owes a full redraw. A drag marks the lower windows
 * that it repairs, which are those that meet the old place: of each the redraw also draws what was written and not
 * marked yet, wherever in it that is. If one was marked and had no damage, so that all of it was to be drawn, only
 * what the drag uncovered of it is; to have all of it drawn, tell the redraw.
 *
 * Releases. A MouseUp goes to the window that took the last MouseDown, wherever the finger is by then, at that window's
 * pixel nearest to it (request N1), unless the window was hidden or dropped meanwhile. A second MouseDown, of another
 * finger or button, takes the first one's place. Where no window is remembered, or the one remembered has no pixels, a
 * MouseUp goes to the topmost window at its point, as every one did before N1: so a panel acts on a release only if it
 * took the press (duty D10). A release beside its window comes at the window's edge, so leave at least one pixel
 * between a button and the edge; else it counts as let go on the button (duty D11). A window is brought to the front by
 * roq_raise, before its press is routed or after: a raise forgets no press. A hide does, also if a show follows.
 *
 * Limits. Ids are 0 to 15. Any other number may be given; it is no window's, and question 3 is answered with a no. A
 * pixel has red in bits 16 to 23, green in 8 to 15, blue in 0 to 7; the top byte is kept as it is. No call takes as
 * much as 16 KiB of stack (duty D15): worked out by tools/stack, not proved. roq_start comes first (duty D2). Without
 * it a session of zeros answers as one with C = 0, measured and not promised: windows are created and shown, but a call
 * that is lent a store with any pixel answers 1, and nothing is drawn. */
#ifndef ROQSHYN_H
#define ROQSHYN_H

#include <stdbool.h>
#include <stddef.h>
#include <stdint.h>

#ifdef __cplusplus
extern "C" {
#endif

/* ---- Names ---- */

/* The version of this header; docs/VERSIONS.md of the repository says when which number moves. */
#define ROQ_VERSION_MAJOR 1
#define ROQ_VERSION_MINOR 1
#define ROQ_VERSION_PATCH 0
#define ROQ_VERSION (ROQ_VERSION_MAJOR * 1000000 + ROQ_VERSION_MINOR * 1000 + ROQ_VERSION_PATCH)

/* The answers: ROQ_OK, or what was wrong, by the number of its question. */
enum {
    ROQ_OK = 0,
    ROQ_ERROR_STORE_LENGTH = 1,
    ROQ_ERROR_CAPACITY = 2,
    ROQ_ERROR_UNKNOWN_ID = 3,
    ROQ_ERROR_NO_FREE_ID = 4,
    ROQ_ERROR_TOO_LARGE = 5,
    ROQ_ERROR_WINDOW_SIZE = 6,
    ROQ_ERROR_STRIDE = 7,
    ROQ_ERROR_SCREEN_SIZE = 8,
    ROQ_ERROR_LIST_LENGTH = 9,
    ROQ_ERROR_NO_EVENT = 10,
    ROQ_ERROR_NO_WINDOW = 11,
    ROQ_ERROR_QUEUE_FULL = 12,
    ROQ_ERROR_OUTSIDE_PIXELS = 13,
    ROQ_ERROR_EDGE_TOO_LARGE = 14,
    ROQ_ERROR_DISPLAY_SIZE = 15,
    ROQ_ERROR_TOO_MANY_DISPLAYS = 16,
    ROQ_ERROR_LAYER = 17,
    ROQ_ERROR_NO_SHEET = 18,
    ROQ_ERROR_SHEET_LENGTH = 19,
    ROQ_ERROR_NO_WALK = 20,
    ROQ_ERROR_KEY_FIRE = 21,
    ROQ_ERROR_LOOK = 22,
    ROQ_ERROR_TARGET_SIZE = 23,
    ROQ_ERROR_NOT_IN_VIEW = 24,
    ROQ_ERROR_POINTS = 25,
    ROQ_ERROR_RUN_LENGTH = 26,
    ROQ_ERROR_TIMES_DESCEND = 27,
    ROQ_ERROR_WHICH_CALL = 28
};

/* So many windows and displays there may be; so many pixels a window may have, which is the greatest C. */
#define ROQ_WINDOWS 16
#define ROQ_DISPLAYS 8
#define ROQ_PIXELS 1048576

/* The id that there is not, which no window has; and nobody, which roq_hits and roq_state give where there is no
 * window. */
#define ROQ_NO_ID UINT32_MAX
#define ROQ_NOBODY 16

/* Lengths that always suffice: numbers for roq_visible, bytes for roq_sheet, numbers for roq_read_sheet; and for as
 * many points as roq_hits takes, the numbers that are given and those that are written. */
#define ROQ_VISIBLE_LEN 1984
#define ROQ_SHEET_LEN 2048
#define ROQ_READ_SHEET_LEN 7812
#define ROQ_POINTS_LEN 64
#define ROQ_HITS_LEN 96

/* The library is compiled for a size_t of 64 bits: with another one this is an array of -1, which is refused. */
typedef char RoqSizeHas64Bits[sizeof(size_t) == 8 ? 1 : -1];

typedef struct RoqPos {
    uint32_t x, y;
} RoqPos;

typedef struct RoqDims {
    uint32_t w, h;
} RoqDims;

typedef struct RoqRect {
    RoqPos pos;
    RoqDims dims;
} RoqRect;

/* The kinds of events. */
enum {
    ROQ_NO_EVENT = 0,
    ROQ_RESIZE = 1,
    ROQ_KEY_DOWN = 2,
    ROQ_KEY_UP = 3,
    ROQ_KEY_FIRE = 4,
    ROQ_TEXT = 5,
    ROQ_MOUSE_MOVE = 6,
    ROQ_MOUSE_DOWN = 7,
    ROQ_MOUSE_CLICK = 8,
    ROQ_MOUSE_UP = 9
};

/* An event. Keys and Text carry `value`; pointer events a point, MouseDown and MouseUp a button too, MouseClick a
 * button and a count, a MouseMove that was popped its difference from the last one. A field that the kind does not have
 * is handed back as 0 and not read. */
typedef struct RoqEvent {
    uint32_t x, y, value;
    int16_t dx, dy;
    uint8_t kind, button, count;
} RoqEvent;

/* ---- A session ---- */

/* 5,784 bytes. */
typedef struct RoqSession {
    uint64_t words[723];
} RoqSession;

#define ROQ_SESSION_SIZE 5784
typedef char RoqSessionHasItsSize[sizeof(RoqSession) == ROQ_SESSION_SIZE ? 1 : -1];

/* The version of the archive, as ROQ_VERSION has that of the header: major x 1,000,000 + minor x 1,000 + patch. */
uint32_t roq_version(void);

/* The bytes of a session as the archive has it, which are those of a RoqSession if header and archive belong together.
 * A program asks before roq_start: with another size a call writes beside the session. */
size_t roq_session_size(void);

/* Begins a session without windows, whose windows will have room for c pixels each. Asks 2; on a no it begins one all
 * the same, with C = 1. Before the call the memory holds zeros (RoqSession s = {0};) or a session, which ends, also on
 * a no (duty D1). */
uint32_t roq_start(RoqSession *s, uint32_t c);

/* What a create gives: on a no the id is ROQ_NO_ID. */
typedef struct RoqCreated {
    uint32_t answer, id;
} RoqCreated;

/* A window with the smallest unused id, at (0,0), of size (0,0), hidden, on layer 0, not maximised. Asks 4. */
RoqCreated roq_create(RoqSession *s);

/* Puts a window on top of its layer and gives it the focus; does nothing where it is shown. Asks 3. */
uint32_t roq_show(RoqSession *s, uint32_t id);

/* Brings a window to the top of its layer and gives it the focus; the window that took the last MouseDown stays
 * remembered. If the order changed, the next redraw draws all that is seen of the window; but where a full redraw is
 * owed or a walk is on, one is owed then. A hidden window is shown, as by roq_show. Asks 3. */
uint32_t roq_raise(RoqSession *s, uint32_t id);

/* Takes a window off the screen; a focus goes to the next lower one, from the lowest to the one that is lowest then,
 * and a MouseUp does not come to it any more. Does nothing where it is hidden. Asks 3. */
uint32_t roq_hide(RoqSession *s, uint32_t id);

/* Hides a window and frees its id; its pixels stay in the store. Asks 3. */
uint32_t roq_drop(RoqSession *s, uint32_t id);

/* Has the next redraw draw a window's damage, or all that is seen of it where it has none. Asks 3. */
uint32_t roq_mark(RoqSession *s, uint32_t id);

/* Places a window's top left corner; it is not maximised then. Asks 3, 5. */
uint32_t roq_move(RoqSession *s, uint32_t id, uint32_t x, uint32_t y);

/* Places a window as roq_move does; it is not maximised then. The next redraw draws all that is seen of it, and of each
 * lower shown window what it has in common with the rectangle that the window had; but where a full redraw is owed or a
 * walk is on, one is owed then. For a hidden window nothing is owed, and no walk goes back. Asks 3, 5. */
uint32_t roq_drag(RoqSession *s, uint32_t id, uint32_t x, uint32_t y);

/* Puts a window on layer 0 or 1. The shown windows of layer 1 stand above all of layer 0, so that none of layer 0
 * covers them or takes a press on them. A shown window goes to the top of its new layer; the focus stays where it is.
 * To give the layer that it has changes nothing. Asks 3, 17. */
uint32_t roq_set_layer(RoqSession *s, uint32_t id, uint32_t layer);

/* Gives a window another size: the pixels of both sizes stay, all others of its C become 0. Queues a Resize for it, if
 * there is room. It is not maximised then. Writes the store. Asks 1, 3, 5, 6. */
uint32_t roq_resize(RoqSession *s, uint32_t id, uint32_t w, uint32_t h, uint32_t *store, size_t store_len);

/* Adds a display, which is a rectangle of the one screen; displays may overlap. There are up to eight, in order of
 * adding, and none is taken away. Asks 5, 15, 16. */
uint32_t roq_add_display(RoqSession *s, RoqRect region);

/* A display: the one that a position is on, where `on` is true, else the closest one; with no display, and on a no,
 * (0,0,0,0). */
typedef struct RoqDisplay {
    uint32_t answer;
    bool on;
    RoqRect rect;
} RoqDisplay;

/* The first display that contains the position; if none does, the display with the pixel nearest in a straight line,
 * the first on ties. Asks 5. */
RoqDisplay roq_display_at(const RoqSession *s, uint32_t x, uint32_t y);

/* A window takes the display that its position is on, corner and size, as by roq_resize, or (0,0,0,0) if it is on
 * none. It is maximised until a roq_move, roq_drag or roq_resize of it is accepted. Question 6 is of the size that
 * it takes. Writes the store. Asks 1, 3, 6. */
uint32_t roq_maximise(RoqSession *s, uint32_t id, uint32_t *store, size_t store_len);

/* Puts all windows where displays are, hidden ones too. A maximised one takes the display that its position is on, or
 * else the closest, as by roq_resize, and stays maximised. Another on no display comes to the closest: its corner at
 * most to 20 pixels before the right and bottom end, and not before the left and top one; it gets no event. One on a
 * display stays. Question 6 is asked of every maximised window before any window is changed. Writes the store. Asks 1,
 * 6. */
uint32_t roq_update_dims(RoqSession *s, uint32_t *store, size_t store_len);

/* What a call that writes pixels gives: how many of them have another value than before. On a no 0. */
typedef struct RoqAltered {
    uint32_t answer;
    size_t altered;
} RoqAltered;

/* Fills the part of the area, relative to the window, that lies in it, and counts the pixels of the store that it
 * altered: 0 where the panel was painted for nothing. Writes the store. Asks 1, 3, 5. */
RoqAltered roq_fill(RoqSession *s, uint32_t id, RoqRect area, uint32_t colour, uint32_t *store, size_t store_len);

/* Rows of the area, relative to the window, take successive chunks of `stride` data, cut to the area's width; data may
 * end early, and what lies outside the window is left out. Counts the pixels that it altered. Reads the data, writes
 * the store. Asks 1, 3, 5, 7. */
RoqAltered roq_blit(RoqSession *s, uint32_t id, RoqRect area, size_t stride, const uint32_t *data, size_t data_len, uint32_t *store,
                    size_t store_len);

/* Hands an event on: keys and Text to the focus, if it is shown; pointer events to the topmost window at the point,
 * relative to it; Resize to nobody, with answer 0. A MouseUp stays with its MouseDown: it goes to the window that took
 * the last one, at that window's pixel nearest to the point, if no MouseUp was taken since, the window was not hidden
 * since, and it has pixels; else to the topmost window as the others. Differences (dx, dy) are not read. A kind that is
 * none of ROQ_RESIZE to ROQ_MOUSE_UP is answered by 11, and ROQ_KEY_FIRE by 21, before every other question: a throttle
 * repeats its keys itself, and no pop gives one. KeyDown, KeyUp and Text ask 11, 12; a MouseMove 5, 11; other pointer
 * events 5, 11, 12. */
uint32_t roq_route(RoqSession *s, RoqEvent e);

/* What a route gives that tells who took the event: the window, and the point that it was given there, (0,0) for keys
 * and Text. Where nobody took it the id is ROQ_NO_ID and the point is (0,0): on a no, and of a Resize. */
typedef struct RoqRouted {
    uint32_t answer, id, x, y;
} RoqRouted;

/* Hands an event on as roq_route does, and tells who took it. A MouseMove is taken by the window whose cursor it moves.
 * Asks as roq_route. */
RoqRouted roq_route_to(RoqSession *s, RoqEvent e);

/* What a pop gives: on a no the event is all zeros. */
typedef struct RoqPopped {
    uint32_t answer;
    RoqEvent event;
} RoqPopped;

/* The oldest event of a window's queue, or else its unread MouseMove. Asks 3, 10. */
RoqPopped roq_pop(RoqSession *s, uint32_t id);

/* The windows that have something to pop: bit i is 1 exactly where a roq_pop of window i would answer 0. Asks
 * nothing. */
uint32_t roq_waiting(const RoqSession *s);

/* Draws the shown windows on the screen, lowest first: everything where `forced` or where a full redraw is owed, else
 * the marked windows. Reads the store, writes the screen. Asks 1, 8. */
uint32_t roq_redraw(RoqSession *s, bool forced, uint32_t width, uint32_t height, const uint32_t *store, size_t store_len,
                    uint32_t *screen, size_t screen_len);

/* Begins a walk, which is a redraw window by window: everything where `forced` or where a full redraw is owed, else the
 * marked windows. Drops the walk that is on; so does roq_redraw. With no window shown the walk is over at once. Asks
 * nothing. */
uint32_t roq_begin(RoqSession *s, bool forced);

/* Draws the walk's next window, lowest first; after the last one the walk is over. Any calls may come between two
 * portions: one that owes a full redraw sends the walk back to the lowest window, to draw everything; what is written
 * to a window after its portion is damage for the next redraw. A walk that is sent back before each portion never ends,
 * and its upper windows stay undrawn, though every portion answers 0. So count the portions: a walk that was not sent
 * back has 16 at most, and after more of them roq_redraw ends it (duty D13). Reads the store, writes the screen. Asks
 * 1, 8, 20. */
uint32_t roq_portion(RoqSession *s, uint32_t width, uint32_t height, const uint32_t *store, size_t store_len, uint32_t *screen,
                     size_t screen_len);

/* Switches dimming, which is off in a new session: while it is on, roq_redraw and roq_portion write red, green and blue
 * (bits 16 to 23, 8 to 15, 0 to 7) of each pixel as (i x i + 127) / 255, rounded down, and the top byte as it is. The
 * store keeps its pixels. To set what is set changes nothing. Asks nothing. */
uint32_t roq_dim(RoqSession *s, bool on);

/* The calls that roq_stale may mean: a roq_redraw that is not forced, one that is, and the next roq_portion. */
enum {
    ROQ_REDRAW = 0,
    ROQ_REDRAW_FORCED = 1,
    ROQ_PORTION = 2
};

/* Where a call would write: on a no, and where it would write nothing, `due` is false and the rectangle (0,0,0,0). */
typedef struct RoqStale {
    uint32_t answer;
    bool due;
    RoqRect rect;
} RoqStale;

/* The smallest rectangle that holds every pixel of the area which that call, made next, would write, also with the
 * value that it has. Asked before the call, it says what to send to a display afterwards: every other pixel of the area
 * stays as it is. The area may pass the end of the screen that the call is lent; what it would write there counts too,
 * so ask of no more than the screen. No store and no screen is lent, and nothing changes. Asks 5, 28; of the next
 * portion 20. */
RoqStale roq_stale(const RoqSession *s, uint32_t which, RoqRect area);

/* How many rectangles a list has, or bytes a sheet: on a no none. */
typedef struct RoqListing {
    uint32_t answer;
    size_t count;
} RoqListing;

/* The visible rectangles of a window, relative to it, as x, y, w, h each. Writes the front of the list; 1,984 numbers
 * always suffice. A hidden window has none. Asks 3, 9. */
RoqListing roq_visible(const RoqSession *s, uint32_t id, uint32_t *list, size_t list_len);

/* How much of a window is in view: on a no percent and remainder are 0. */
typedef struct RoqShare {
    uint32_t answer, percent, remainder;
} RoqShare;

/* 100 x its unobscured pixels, divided by w x h, as whole percent and remainder: 100 x the pixels = percent x w x h +
 * remainder. Pixels off the screen count too. Asks 3, 24. */
RoqShare roq_share(const RoqSession *s, uint32_t id);

/* Which windows lie under up to 32 points, given as x, y each: for each point, in their order, three numbers, the
 * window that a press there would go to and the point relative to it, or ROQ_NOBODY, 0, 0 where there is none. Nothing
 * is delivered, and a full queue changes no answer. Writes the front of the answers; 96 numbers always suffice. Asks 5
 * of every number given, 25. */
uint32_t roq_hits(const RoqSession *s, const uint32_t *points, size_t points_len, uint32_t *answers, size_t answers_len);

/* A look at a window: its corner (x,y) in the window and a factor, 0.25, 0.5, 1, 2 or 4; or `fit`, which takes the
 * corner (0,0) and the greatest factor with which the window passes the target in neither width nor height, or else
 * 0.25, and reads x, y and factor not (duty D16). */
typedef struct RoqLook {
    double x, y, factor;
    bool fit;
} RoqLook;

/* Fills a target of tw by th pixels with what a look shows of a window, shown or hidden: target pixel (i,j) is the
 * window's pixel at (x + i / factor, y + j / factor), each sum rounded down, and 0 outside the window. A corner number
 * of -0.0 counts as 0; any double may be given, NaNs too. Reads the store, writes every pixel of the target; what the
 * window shows is not dimmed. Asks 1, 3, 22, 23. */
uint32_t roq_look(const RoqSession *s, uint32_t id, RoqLook look, uint32_t tw, uint32_t th, const uint32_t *store, size_t store_len,
                  uint32_t *target, size_t target_len);

/* The visible part of a window, relative to it, as a sheet for the plan printer: packed bits, most significant first.
 * They are the count of bands in 6 bits; of each band its top and bottom, 15 bits each, and the count of its intervals
 * in 5; of each interval its left and right, 15 bits each. A band has the rows from its top on, without its bottom, and
 * an interval the columns likewise; neither is empty, and no band is without an interval. Bands go down and intervals
 * rightward; no two intervals of a band touch, and bands that touch differ in their intervals, so that sheets are equal
 * exactly where their pixels are. Zero bits fill the last byte. A window that is hidden, wholly covered or without
 * pixels has one zero byte. Gives the count of bytes. Writes the front of the buffer; 2,048 bytes always suffice. Asks
 * 3, 19. */
RoqListing roq_sheet(const RoqSession *s, uint32_t id, uint8_t *bytes, size_t bytes_len);

/* The window that has the focus; 0 where none is shown. Asks nothing. */
uint32_t roq_focus(const RoqSession *s);

/* Where a window is: on a no (0,0,0,0). */
typedef struct RoqPlaced {
    uint32_t answer;
    RoqRect rect;
} RoqPlaced;

/* A window's position and size. Asks 3. */
RoqPlaced roq_rect_of(const RoqSession *s, uint32_t id);

/* How a window stands: its rectangle; whether it is shown, and its place in the order of drawing, 0 for the lowest one
 * and where it is hidden; its layer; whether it is maximised; whether it is marked, by a call of roq_mark or by a
 * repair; how many events are queued, without a move; whether a move is unread. On a no all are 0. */
typedef struct RoqWindow {
    uint32_t answer;
    RoqRect rect;
    bool shown;
    uint32_t place, layer;
    bool maximised, marked;
    uint32_t queued;
    bool moved;
} RoqWindow;

/* How a window stands. Asks 3. */
RoqWindow roq_window(const RoqSession *s, uint32_t id);

/* How a session stands: C; how many windows are shown; the window that has the focus, ROQ_NOBODY where none is shown;
 * `grab`, the window that took the last MouseDown while it is remembered, also where it has no pixels, else ROQ_NOBODY;
 * whether dimming is on; whether a full redraw is owed; whether a walk is on, whether it is full and how many portions
 * are left of it, 0 with no walk; and how many displays there are. */
typedef struct RoqState {
    uint32_t c, shown, focus, grab;
    bool dimmed, owed, walk, full;
    uint32_t left, displays;
} RoqState;

/* How the session stands. Asks nothing. */
RoqState roq_state(const RoqSession *s);

/* ---- Rectangles alone: these ask 14 ---- */

/* On a no `yes` is false. */
typedef struct RoqTested {
    uint32_t answer;
    bool yes;
} RoqTested;

/* Whether the point lies in r. */
RoqTested roq_contains(RoqRect r, RoqPos pt);

/* Whether b lies in a; of an empty b its corner has to. */
RoqTested roq_contains_rect(RoqRect a, RoqRect b);

/* Whether r lies in (0,0,w,h), its corner included. */
RoqTested roq_within(RoqRect r, uint32_t w, uint32_t h);

/* Where two rectangles do not meet, and on a no, `meets` is false and the rectangle (0,0,0,0). */
typedef struct RoqIntersection {
    uint32_t answer;
    bool meets;
    RoqRect rect;
} RoqIntersection;

/* What a and b have in common. */
RoqIntersection roq_intersect(RoqRect a, RoqRect b);

/* On a no the rectangle is (0,0,0,0). */
typedef struct RoqUnited {
    uint32_t answer;
    RoqRect rect;
} RoqUnited;

/* The smallest rectangle that contains a and b. */
RoqUnited roq_union(RoqRect a, RoqRect b);

typedef struct RoqPieces {
    size_t count;
    RoqRect rects[4];
} RoqPieces;

/* On a no there are no pieces: `count` is 0. The rectangles from `count` on are (0,0,0,0). */
typedef struct RoqNotIntersect {
    uint32_t answer;
    RoqPieces pieces;
} RoqNotIntersect;

/* The pieces of a outside b: above, left, right, below. Where they do not meet, a itself. */
RoqNotIntersect roq_not_intersect(RoqRect a, RoqRect b);

/* ---- Pixels alone: these ask 5, 13 ---- */

/* A part of lent pixels: `count` of them from `start` on. On a no, and where it is empty, both are 0. */
typedef struct RoqPart {
    uint32_t answer;
    size_t start, count;
} RoqPart;

/* `len` pixels of a line from `ofs` on, cut to the width, of a picture of width by height. With width 0 the part is
 * empty and the answer 0; else 13 where the line is not below the height, the offset not below the width, or the cut
 * part passes the end of the pixels. */
RoqPart roq_scanline(const uint32_t *pixels, size_t pixels_len, uint32_t width, uint32_t height, uint32_t line, uint32_t ofs,
                     uint32_t len);

/* Fills such a part, and counts the pixels that it altered; does nothing, with answer 0, where the line or the offset
 * lies beside the picture. 13 where the cut part passes the end of the pixels, here and in the next one. */
RoqAltered roq_fill_scanline(uint32_t *pixels, size_t pixels_len, uint32_t width, uint32_t height, uint32_t line, uint32_t ofs,
                             uint32_t len, uint32_t value);

/* Writes data to such a part, as far as both go, and counts the pixels that it altered; does nothing, with answer 0,
 * where it lies beside the picture. */
RoqAltered roq_set_scanline(uint32_t *pixels, size_t pixels_len, uint32_t width, uint32_t height, uint32_t line, uint32_t ofs,
                            uint32_t len, const uint32_t *data, size_t data_len);

/* The rows of (x,y,w,h) in a picture whose rows begin `stride` apart, with what lies between them: (h - 1) x stride + w
 * pixels from x + y x stride on. 13 unless h is at least 1, w at most the stride, and the last of them lies in the
 * pixels. */
RoqPart roq_region(const uint32_t *pixels, size_t pixels_len, size_t stride, uint32_t x, uint32_t y, uint32_t w, uint32_t h);

/* ---- Sheets alone: these ask 18, 19 ---- */

/* The rectangles of a sheet, one an interval, in its order, as x, y, w, h each. Any bytes may be read; 18 where they
 * are not as roq_sheet says, to the last bit, and where there are none. Gives the count of rectangles. Writes the front
 * of the list; 7,812 numbers always suffice, and 1,984 for what roq_sheet wrote. */
RoqListing roq_read_sheet(const uint8_t *bytes, size_t bytes_len, uint32_t *list, size_t list_len);

/* ---- Event times alone: these ask 26, 27 ---- */

/* The greatest number of events in a second, and the place of the first event that begins such a second, counted from
 * 0. On a no, and where there are no events, both are 0. */
typedef struct RoqSecond {
    uint32_t answer;
    size_t count, place;
} RoqSecond;

/* The busiest second of a run of event times in milliseconds. A second begins at an event's time t and ends before t +
 * 1,000, also where that is above 4,294,967,295; events of equal times are counted each. */
RoqSecond roq_busiest(const uint32_t *times, size_t count);

#ifdef __cplusplus
}
#endif

#endif
