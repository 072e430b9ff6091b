/* Random arguments: mostly such that a call is accepted, often at a limit, sometimes anything. In a rough call half of
 * the arguments are anything, so that several questions are to be answered with a no, and the first of them counts. */
#include "hostile.h"

static uint64_t state;
static bool rough;

void seed_with(uint64_t seed) { state = seed; }

/* splitmix64, of Steele, Lea and Flood. */
uint64_t random_bits(void) {
    uint64_t z = state += UINT64_C(0x9e3779b97f4a7c15);
    z = (z ^ (z >> 30)) * UINT64_C(0xbf58476d1ce4e5b9);
    z = (z ^ (z >> 27)) * UINT64_C(0x94d049bb133111eb);
    return z ^ (z >> 31);
}

uint32_t below(uint32_t bound) { return (uint32_t)(((random_bits() >> 32) * bound) >> 32); }

bool one_in(uint32_t bound) { return below(bound) == 0; }

void begin_random_call(void) { rough = one_in(12); }

bool odd_one_in(uint32_t bound) { return one_in(rough ? 2 : bound); }

uint32_t often_0(uint32_t bound) { return one_in(2) ? 0 : below(bound); }

size_t wild_stride(void) {
    size_t bits = (size_t)random_bits();
    return bits >> below(64);
}

uint32_t wild(void) {
    static const uint32_t limits[] = {0,
                                      1,
                                      15,
                                      16,
                                      17,
                                      32,
                                      255,
                                      256,
                                      4096,
                                      32766,
                                      32767,
                                      32768,
                                      65535,
                                      65536,
                                      1048576,
                                      1048577,
                                      INT32_MAX,
                                      UINT32_C(1) << 31,
                                      UINT32_MAX - 1,
                                      UINT32_MAX};
    uint32_t kind = below(4);
    if (kind == 0)
        return below(64);
    if (kind == 1)
        return (uint32_t)random_bits();
    return limits[below(sizeof limits / sizeof limits[0])];
}

uint32_t id_of_window(void) {
    if (odd_one_in(48))
        return wild();
    return below(one_in(4) ? 16 : 8);
}

uint32_t coordinate(void) {
    if (odd_one_in(100))
        return wild();
    if (one_in(32))
        return 32767 - below(24);
    return below(24);
}

uint32_t side(void) {
    if (odd_one_in(100))
        return wild();
    return one_in(16) ? 0 : 1 + below(15);
}

RoqPos position(void) {
    RoqPos at;
    at.x = coordinate();
    at.y = coordinate();
    return at;
}

RoqDims sides(void) {
    RoqDims dims;
    dims.w = side();
    dims.h = side();
    return dims;
}

RoqRect area(void) {
    RoqRect r;
    r.pos = position();
    r.dims = sides();
    return r;
}

RoqRect bare_rect(void) {
    if (!one_in(3))
        return area();
    RoqRect r;
    r.pos.x = wild();
    r.pos.y = wild();
    r.dims.w = wild();
    r.dims.h = wild();
    if (one_in(2))
        r.dims.w = UINT32_MAX - r.pos.x + below(2);
    return r;
}

size_t length_near(uint64_t exact, size_t most) {
    uint64_t len = exact;
    if (odd_one_in(40))
        len = exact - 1 + below(3);
    else if (odd_one_in(60))
        len = often_0(4096);
    return len <= most ? (size_t)len : below(64);
}
