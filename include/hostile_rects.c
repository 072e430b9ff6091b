/* Rectangles alone, whose sums may pass 32 bits. */
#include "hostile_calls.h"

static const RoqRect none = {{0, 0}, {0, 0}};

static bool ends(RoqRect r) {
    return (uint64_t)r.pos.x + r.dims.w <= UINT32_MAX && (uint64_t)r.pos.y + r.dims.h <= UINT32_MAX;
}

static bool is_empty(RoqRect r) { return r.dims.w == 0 || r.dims.h == 0; }

static RoqRect from_ends(uint32_t left, uint32_t top, uint32_t right, uint32_t bottom) {
    RoqRect r = {{left, top}, {right - left, bottom - top}};
    return r;
}

static uint32_t greatest(uint32_t a, uint32_t b) { return a < b ? b : a; }

static bool meet(RoqRect a, RoqRect b, RoqRect *common) {
    uint32_t left = greatest(a.pos.x, b.pos.x), right = least(a.pos.x + a.dims.w, b.pos.x + b.dims.w);
    uint32_t top = greatest(a.pos.y, b.pos.y), bottom = least(a.pos.y + a.dims.h, b.pos.y + b.dims.h);
    bool so = left < right && top < bottom;
    *common = so ? from_ends(left, top, right, bottom) : none;
    return so;
}

/* Two rectangles, and the answer that is due of them. */
static uint32_t two_rects(RoqRect *a, RoqRect *b) {
    *a = bare_rect();
    *b = bare_rect();
    GIVEN(a->pos.x, a->pos.y, a->dims.w, a->dims.h, b->pos.x, b->pos.y, b->dims.w, b->dims.h);
    return ends(*a) && ends(*b) ? 0 : 14;
}

void call_contains(void) {
    RoqRect r = bare_rect();
    RoqPos at = position();
    if (one_in(4))
        at.x = wild();
    GIVEN(r.pos.x, r.pos.y, r.dims.w, r.dims.h, at.x, at.y);
    RoqTested tested = roq_contains(r, at);
    bool is = accepted(tested.answer, ends(r) ? 0 : 14);
    expect(tested.yes == (is && has(r, at.x, at.y)), "it contains the point otherwise");
}

void call_contains_rect(void) {
    RoqRect a, b, common;
    uint32_t due = two_rects(&a, &b);
    RoqTested tested = roq_contains_rect(a, b);
    if (accepted(tested.answer, due))
        expect(is_empty(b) || tested.yes == (meet(a, b, &common) && same_rect(common, b)),
               "it contains the rectangle otherwise");
    else
        expect(!tested.yes, "a refused question says yes");
}

void call_within(void) {
    RoqRect r = bare_rect(), common;
    RoqDims dims;
    dims.w = one_in(4) ? wild() : below(40);
    dims.h = one_in(4) ? wild() : below(40);
    RoqRect whole = {{0, 0}, dims};
    GIVEN(r.pos.x, r.pos.y, r.dims.w, r.dims.h, dims.w, dims.h);
    RoqTested tested = roq_within(r, dims.w, dims.h);
    if (accepted(tested.answer, ends(r) ? 0 : 14))
        expect(is_empty(r) || tested.yes == (meet(r, whole, &common) && same_rect(common, r)),
               "it lies within otherwise");
    else
        expect(!tested.yes, "a refused question says yes");
}

void call_intersect(void) {
    RoqRect a, b, common = none;
    uint32_t due = two_rects(&a, &b);
    RoqIntersection got = roq_intersect(a, b);
    bool meets = accepted(got.answer, due) && meet(a, b, &common);
    expect(got.meets == meets && same_rect(got.rect, common), "they have something else in common");
}

void call_union(void) {
    RoqRect a, b, both = none;
    uint32_t due = two_rects(&a, &b);
    RoqUnited got = roq_union(a, b);
    if (accepted(got.answer, due))
        both = from_ends(least(a.pos.x, b.pos.x), least(a.pos.y, b.pos.y),
                         greatest(a.pos.x + a.dims.w, b.pos.x + b.dims.w),
                         greatest(a.pos.y + a.dims.h, b.pos.y + b.dims.h));
    expect(same_rect(got.rect, both), "it is another union");
}

/* The pieces of a outside b. */
static RoqPieces pieces_of(RoqRect a, RoqRect b) {
    RoqPieces pieces = {0, {none, none, none, none}};
    RoqRect i;
    if (!meet(a, b, &i)) {
        pieces.rects[pieces.count++] = a;
        return pieces;
    }
    uint32_t right = a.pos.x + a.dims.w, bottom = a.pos.y + a.dims.h, iright = i.pos.x + i.dims.w,
             ibottom = i.pos.y + i.dims.h;
    RoqRect four[4] = {from_ends(a.pos.x, a.pos.y, right, i.pos.y), from_ends(a.pos.x, i.pos.y, i.pos.x, ibottom),
                       from_ends(iright, i.pos.y, right, ibottom), from_ends(a.pos.x, ibottom, right, bottom)};
    for (size_t k = 0; k < 4; k++)
        if (!is_empty(four[k]))
            pieces.rects[pieces.count++] = four[k];
    return pieces;
}

void call_not_intersect(void) {
    RoqRect a, b;
    uint32_t due = two_rects(&a, &b);
    RoqNotIntersect got = roq_not_intersect(a, b);
    RoqPieces pieces = {0, {none, none, none, none}};
    if (accepted(got.answer, due))
        pieces = pieces_of(a, b);
    bool same = got.pieces.count == pieces.count;
    for (size_t k = 0; k < 4; k++)
        same = same && same_rect(got.pieces.rects[k], pieces.rects[k]);
    expect(same, "the pieces are others");
}
