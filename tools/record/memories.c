/* The station's sessions, stores and screens, in our memory. */
#include "play.h"

#include <stdlib.h>
#include <string.h>

static struct memory_at memories[MOST_MEMORIES];

struct memory_at *memory_of(uint32_t number) { return number < MOST_MEMORIES ? &memories[number] : NULL; }

static bool is_possible(enum memory what, uint64_t len) {
    if (what == SESSION)
        return len == sizeof(RoqSession) / sizeof(uint32_t);
    return (what == STORE || what == SCREEN) && len <= (uint64_t)1 << 31;
}

/* Gives a session the bytes of another one that are no field's. */
static void equal_paddings(uint32_t *session, const uint32_t *other) {
    for (size_t i = 0; i < padding_count; i++) {
        struct padding p = session_paddings[i];
        memcpy((uint8_t *)session + p.at, (const uint8_t *)other + p.at, p.bytes);
    }
}

/* The first word that differs, or the length. */
static size_t first_difference(const uint32_t *a, const uint32_t *b, size_t len) {
    size_t at = 0;
    if (len == 0 || memcmp(a, b, len * sizeof *a) == 0)
        return len;
    while (a[at] == b[at])
        at++;
    return at;
}

static void replace(struct memory_at *m, enum memory what, uint32_t *at, size_t len) {
    struct memory_at taken = {what, at, len, 0, 0};
    free(m->at);
    *m = taken;
}

enum taken take_memory(struct reader *r, uint32_t *number, size_t *differs, uint32_t *recorded) {
    *number = get_u32(r);
    enum memory what = get_u32(r);
    enum why why = get_u32(r);
    uint64_t len = get_u64(r);
    struct memory_at *m = memory_of(*number);
    if (r->failed || m == NULL || !is_possible(what, len))
        return WRONG;
    uint32_t *at = malloc(len == 0 ? 1 : len * sizeof *at);
    if (at == NULL)
        fail(2, "there is no memory for %llu pixels", (unsigned long long)len);
    get_words(r, at, len);
    if (r->failed) {
        free(at);
        return WRONG;
    }
    bool is_known = why != NEW && m->what == what && m->len == len;
    if (!is_known || why == CHANGED) {
        replace(m, what, at, len);
        return is_known ? REPLACED : TAKEN;
    }
    if (what == SESSION)
        equal_paddings(at, m->at);
    *differs = first_difference(at, m->at, len);
    *recorded = *differs < len ? at[*differs] : 0;
    free(at);
    return *differs < len ? DIFFERENT : EQUAL;
}
