/* What is seen of a window, as list, share and sheet. How many rectangles or bytes there are is taken from a call that
 * is lent room enough. */
#include "hostile_calls.h"

#include <string.h>

enum { LIST_ROOM = 1984, SHEET_ROOM = 2048, READ_ROOM = 7812 };
static uint32_t whole_list[LIST_ROOM];
static uint8_t whole_sheet[SHEET_ROOM];

static uint64_t pixels_in(const uint32_t *list, size_t count) {
    uint64_t pixels = 0;
    for (size_t i = 0; i < count; i++)
        pixels += (uint64_t)list[4 * i + 2] * list[4 * i + 3];
    return pixels;
}

/* The count of a window's visible rectangles, and their pixels, of which a hidden window has none. */
static size_t seen_of(uint32_t id, uint64_t *pixels) {
    RoqListing seen = roq_visible(session_to_read(), id, whole_list, LIST_ROOM);
    expect(seen.answer == (in_use(id) ? 0u : 3u) && seen.count <= LIST_ROOM / 4, "no list with room enough");
    *pixels = pixels_in(whole_list, seen.count);
    uint64_t most = in_use(id) && is_shown(id) ? pixels_of(model.windows[id].rect.dims) : 0;
    expect(*pixels <= most && (most > 0 || seen.count == 0 || pixels_of(model.windows[id].rect.dims) == 0),
           "more is seen than there is");
    return seen.count;
}

void call_visible(void) {
    uint32_t id = id_of_window();
    uint64_t pixels;
    size_t count = seen_of(id, &pixels), len = length_near(4 * count + often_0(9), room_of(LIST));
    GIVEN(id, len);
    RoqListing seen = roq_visible(session_to_read(), id, lend(LIST, len), len);
    bool is = accepted(seen.answer, !in_use(id) ? 3 : len < 4 * count ? 9 : 0);
    expect(seen.count == (is ? count : 0), "the list has another count");
    expect(!is || memcmp(lent_now(LIST), whole_list, 16 * count) == 0, "the list has other rectangles");
    expect(!is || kept_from(LIST, 16 * count), "the rest of the list was written");
}

void call_share(void) {
    uint32_t id = id_of_window();
    uint64_t seen, all = 0;
    GIVEN(id);
    seen_of(id, &seen);
    if (in_use(id))
        all = pixels_of(model.windows[id].rect.dims);
    RoqShare share = roq_share(session_to_read(), id);
    if (accepted(share.answer, !in_use(id) ? 3 : !is_shown(id) || all == 0 ? 24 : 0))
        expect(100 * seen == share.percent * all + share.remainder && share.remainder < all, "it is another share");
    else
        expect(share.percent == 0 && share.remainder == 0, "a refused share is not 0");
}

/* The sheet of a window; 0 bytes where the id is not in use. */
static size_t sheet_of(uint32_t id) {
    RoqListing sheet = roq_sheet(session_to_read(), id, whole_sheet, SHEET_ROOM);
    expect(sheet.answer == (in_use(id) ? 0u : 3u) && sheet.count <= SHEET_ROOM, "no sheet with room enough");
    return sheet.count;
}

void call_sheet(void) {
    uint32_t id = id_of_window();
    uint64_t seen, written;
    size_t count = sheet_of(id), len = length_near(count + often_0(9), 4 * room_of(LIST));
    GIVEN(id, len);
    RoqListing sheet = roq_sheet(session_to_read(), id, lend_bytes(LIST, len), len);
    bool is = accepted(sheet.answer, !in_use(id) ? 3 : len < count ? 19 : 0);
    expect(sheet.count == (is ? count : 0), "the sheet has another count");
    if (!is)
        return;
    expect(memcmp(lent_now(LIST), whole_sheet, count) == 0 && kept_from(LIST, count), "the sheet has other bytes");
    seen_of(id, &seen);
    expect(rectangles_of_sheet(whole_sheet, count, &written) >= 0 && written == seen,
           "the sheet is not of what is seen");
}

static void flip_bit(uint32_t bit) { whole_sheet[bit / 8] ^= (uint8_t)(1u << bit % 8); }

/* Bytes to read: a window's sheet, often with a bit changed, cut or made longer; or anything. */
static size_t random_sheet(void) {
    size_t len = one_in(8) ? below(40) : sheet_of(id_of_window());
    if (one_in(4) && len > 0)
        flip_bit(below(8 * (uint32_t)len));
    if (one_in(16) && len < SHEET_ROOM)
        whole_sheet[len++] = (uint8_t)below(2);
    if (one_in(16) && len > 0)
        len--;
    return len;
}

void call_read_sheet(void) {
    uint64_t pixels;
    size_t len = random_sheet();
    long count = rectangles_of_sheet(whole_sheet, len, &pixels);
    size_t rects = count < 0 ? 0 : (size_t)count, list_len = length_near(4 * rects + often_0(9), room_of(LIST));
    GIVEN(len, list_len);
    const uint8_t *bytes = lend_bytes_to_read(DATA, len, whole_sheet);
    RoqListing read = roq_read_sheet(bytes, len, lend(LIST, list_len), list_len);
    bool is = accepted(read.answer, count < 0 ? 18 : list_len < 4 * rects ? 19 : 0);
    expect(read.count == (is ? rects : 0), "another count of rectangles is read");
    expect(!is || pixels_in(lent_now(LIST), rects) == pixels, "other rectangles are read");
    expect(!is || kept_from(LIST, 16 * rects), "the rest of the list was written");
}
