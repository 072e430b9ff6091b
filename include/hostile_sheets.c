/* Whether bytes are a sheet, read as roqshyn.h says it is packed. */
#include "hostile.h"

#include <string.h>

/* The bits that are not read yet; `short_of` where more were asked for than there are. */
struct reader {
    const uint8_t *bytes;
    size_t bits, at;
    bool short_of;
};

static uint32_t next_bits(struct reader *r, uint32_t count) {
    uint32_t value = 0;
    for (uint32_t i = 0; i < count; i++, r->at++) {
        if (r->at >= r->bits) {
            r->short_of = true;
            return 0;
        }
        value = value << 1 | ((uint32_t)r->bytes[r->at / 8] >> (7 - r->at % 8) & 1);
    }
    return value;
}

/* A band: its rows and its intervals, and how many columns these have. */
struct band {
    uint32_t top, bottom, count, columns, ends[62];
};

static bool read_band(struct reader *r, struct band *b) {
    uint32_t least = 0;
    b->top = next_bits(r, 15);
    b->bottom = next_bits(r, 15);
    b->count = next_bits(r, 5);
    b->columns = 0;
    if (r->short_of || b->top >= b->bottom || b->count == 0)
        return false;
    for (uint32_t i = 0; i < b->count; i++) {
        uint32_t left = next_bits(r, 15), right = next_bits(r, 15);
        if (r->short_of || left < least || left >= right)
            return false;
        b->ends[2 * i] = left;
        b->ends[2 * i + 1] = right;
        b->columns += right - left;
        least = right + 1;
    }
    return true;
}

static bool same_intervals(const struct band *a, const struct band *b) {
    return a->count == b->count && memcmp(a->ends, b->ends, 2 * a->count * sizeof a->ends[0]) == 0;
}

long rectangles_of_sheet(const uint8_t *bytes, size_t len, uint64_t *pixels) {
    struct reader r = {bytes, 8 * len, 0, false};
    struct band last = {0}, b;
    uint32_t bands = next_bits(&r, 6);
    long count = 0;
    *pixels = 0;
    for (uint32_t i = 0; i < bands; i++, last = b) {
        if (!read_band(&r, &b) || b.top < last.bottom || (i > 0 && b.top == last.bottom && same_intervals(&last, &b)))
            return -1;
        count += b.count;
        *pixels += (uint64_t)b.columns * (b.bottom - b.top);
    }
    size_t rest = r.bits - r.at;
    return r.short_of || rest >= 8 || next_bits(&r, (uint32_t)rest) != 0 ? -1 : count;
}
