/* Pixels alone: lines and regions of a picture that is lent. */
#include "hostile_calls.h"

/* A part of a line of a picture that is lent `pixels` pixels. */
struct line {
    uint32_t width, height, line, ofs, len;
    size_t pixels;
};

static struct line random_line(void) {
    struct line l;
    l.width = side();
    l.height = side();
    l.len = side();
    l.line = odd_one_in(12) ? side() : below(least(l.height, 64));
    l.ofs = odd_one_in(12) ? side() : below(least(l.width, 64));
    if (one_in(100))
        l.width = LIMIT;
    l.pixels = length_near((uint64_t)l.width * l.height, room_of(SCREEN));
    GIVEN(l.width, l.height, l.line, l.ofs, l.len, l.pixels);
    return l;
}

static size_t start_of(struct line l) { return (size_t)l.line * l.width + l.ofs; }

static size_t count_of(struct line l) { return least(l.len, l.width - l.ofs); }

static bool is_beside(struct line l) { return l.line >= l.height || l.ofs >= l.width; }

static uint32_t due_line(struct line l, bool beside_is_refused) {
    ASK(l.width <= LIMIT && l.height <= LIMIT && l.line <= LIMIT && l.ofs <= LIMIT && l.len <= LIMIT, 5);
    if (beside_is_refused && l.width == 0)
        return 0;
    ASK(!is_beside(l) || !beside_is_refused, 13);
    ASK(is_beside(l) || start_of(l) + count_of(l) <= l.pixels, 13);
    return 0;
}

static void judge_part(RoqPart part, uint32_t due, size_t start, size_t count) {
    bool any = accepted(part.answer, due) && count > 0;
    expect(part.count == (any ? count : 0) && part.start == (any ? start : 0), "it is another part");
}

void call_scanline(void) {
    struct line l = random_line();
    RoqPart part =
        roq_scanline(lend_to_read(SCREEN, l.pixels, NULL), l.pixels, l.width, l.height, l.line, l.ofs, l.len);
    uint32_t due = due_line(l, true);
    judge_part(part, due, start_of(l), due == 0 && l.width > 0 ? count_of(l) : 0);
}

/* What a write to a line gives, of which at most `most` pixels are written. */
static void judge_line(RoqAltered got, struct line l, size_t most) {
    if (!accepted(got.answer, due_line(l, false))) {
        expect(got.altered == 0, "a refused write counts pixels");
        return;
    }
    expect(got.altered == altered_in(SCREEN), "it counts other pixels than it altered");
    if (is_beside(l))
        expect(got.altered == 0, "a line beside the picture was written");
    else
        expect(kept_outside(SCREEN, start_of(l), start_of(l) + (count_of(l) < most ? count_of(l) : most)),
               "pixels outside the part were written");
}

void call_fill_scanline(void) {
    struct line l = random_line();
    uint32_t value = below(4);
    judge_line(roq_fill_scanline(lend(SCREEN, l.pixels), l.pixels, l.width, l.height, l.line, l.ofs, l.len, value), l,
               SIZE_MAX);
}

void call_set_scanline(void) {
    struct line l = random_line();
    size_t data_len = one_in(8) ? 0 : below(24);
    const uint32_t *data = lend_to_read(DATA, data_len, NULL);
    judge_line(
        roq_set_scanline(lend(SCREEN, l.pixels), l.pixels, l.width, l.height, l.line, l.ofs, l.len, data, data_len), l,
        data_len);
}

static uint32_t due_region(RoqRect r, size_t stride, size_t pixels) {
    ASK(is_small(r), 5);
    ASK(r.dims.h >= 1 && r.dims.w <= stride, 13);
    size_t rows = (size_t)r.pos.y + r.dims.h - 1;
    ASK(rows == 0 || stride <= pixels, 13);
    ASK((rows == 0 ? 0 : rows * stride) + r.pos.x + r.dims.w <= pixels, 13);
    return 0;
}

void call_region(void) {
    RoqRect r;
    r.pos.x = odd_one_in(16) ? side() : below(8);
    r.pos.y = odd_one_in(16) ? side() : below(8);
    r.dims = sides();
    size_t stride = one_in(8) ? wild_stride() : 8 + below(20),
           pixels = length_near(stride % 4096 * 12, room_of(SCREEN));
    GIVEN(r.pos.x, r.pos.y, r.dims.w, r.dims.h, stride, pixels);
    RoqPart part = roq_region(lend_to_read(SCREEN, pixels, NULL), pixels, stride, r.pos.x, r.pos.y, r.dims.w, r.dims.h);
    judge_part(part, due_region(r, stride, pixels), r.pos.x + r.pos.y * stride, (r.dims.h - 1) * stride + r.dims.w);
}
