/* Memory that is lent to calls: each place lies between two pages that cannot be touched, and is seen twice, so that an
 * array that a call only reads is lent where it cannot be written. Before a call everything lent is copied, with what
 * lies around it. */
#define _GNU_SOURCE
#include "hostile.h"

#include <stdio.h>
#include <stdlib.h>
#include <string.h>
#include <sys/mman.h>
#include <unistd.h>

enum { PAGE = 4096, AROUND = 64, MOST_LENT = 4 };

static const size_t sizes[PLACES] = {2 * PAGE, 1024 * PAGE, 256 * PAGE, 16 * PAGE, 16 * PAGE};
static uint8_t *writable[PLACES], *readable[PLACES], *copies[PLACES];

/* An array of a place that this call was lent: its bytes from `from` to `to`. */
static struct lent {
    enum place place;
    size_t from, to;
} lents[MOST_LENT];
static size_t lent_count, session_from;

static void *checked(void *memory) {
    if (memory == MAP_FAILED || memory == NULL) {
        perror("include/hostile");
        exit(2);
    }
    return memory;
}

/* A view of a file between two pages of no access. */
static uint8_t *view(int file, size_t bytes, int protection) {
    uint8_t *pages = checked(mmap(NULL, bytes + 2 * PAGE, PROT_NONE, MAP_PRIVATE | MAP_ANONYMOUS, -1, 0));
    return checked(mmap(pages + PAGE, bytes, protection, MAP_SHARED | MAP_FIXED, file, 0));
}

void map_places(void) {
    for (size_t i = 0; i < PLACES; i++) {
        int file = memfd_create("lent", 0);
        if (file < 0 || ftruncate(file, (off_t)sizes[i]) != 0)
            checked(NULL);
        writable[i] = view(file, sizes[i], PROT_READ | PROT_WRITE);
        readable[i] = view(file, sizes[i], PROT_READ);
        copies[i] = checked(malloc(sizes[i]));
        close(file);
    }
}

size_t room_of(enum place place) { return sizes[place] / sizeof(uint32_t); }

RoqSession *session(void) { return (RoqSession *)(void *)(writable[SESSION] + session_from); }

const RoqSession *session_to_read(void) { return (const RoqSession *)(void *)(readable[SESSION] + session_from); }

static size_t before(size_t from) { return from < AROUND ? 0 : from - AROUND; }

static size_t behind(enum place place, size_t to) { return sizes[place] - to < AROUND ? sizes[place] : to + AROUND; }

static void keep(enum place place, size_t from, size_t to) {
    size_t first = before(from), bytes = behind(place, to) - first;
    struct lent lent = {place, from, to};
    memcpy(copies[place] + first, writable[place] + first, bytes);
    lents[lent_count++] = lent;
}

void lend_nothing(void) {
    lent_count = 0;
    if (one_in(16)) {
        size_t to = one_in(2) ? 0 : sizes[SESSION] - sizeof(RoqSession);
        memmove(writable[SESSION] + to, session(), sizeof(RoqSession));
        session_from = to;
    }
    keep(SESSION, session_from, session_from + sizeof(RoqSession));
}

/* Where an array of so many bytes begins: its place ends or begins with it, or neither. */
static size_t beginning(enum place place, size_t bytes, size_t align) {
    size_t last = sizes[place] - bytes;
    switch (below(5)) {
    case 0:
    case 1: return last;
    case 2:
    case 3: return 0;
    default:
        return last > 4 * PAGE ? last - below(4 * PAGE) / align * align : below((uint32_t)last + 1) / align * align;
    }
}

/* Lends bytes of a place, with these contents, or as they are; the view that the call gets, or null. */
static void *lend_part(enum place place, size_t bytes, size_t align, const void *contents, uint8_t *const *views) {
    size_t from = beginning(place, bytes, align);
    if (contents != NULL && bytes != 0)
        memcpy(writable[place] + from, contents, bytes);
    keep(place, from, from + bytes);
    return bytes == 0 && one_in(2) ? NULL : views[place] + from;
}

uint32_t *lend(enum place place, size_t len) {
    return lend_part(place, len * sizeof(uint32_t), sizeof(uint32_t), NULL, writable);
}

const uint32_t *lend_to_read(enum place place, size_t len, const uint32_t *contents) {
    return lend_part(place, len * sizeof(uint32_t), sizeof(uint32_t), contents, readable);
}

uint8_t *lend_bytes(enum place place, size_t len) { return lend_part(place, len, 1, NULL, writable); }

const uint8_t *lend_bytes_to_read(enum place place, size_t len, const uint8_t *contents) {
    return lend_part(place, len, 1, contents, readable);
}

/* Whether these bytes of a place are as they were copied. */
static bool same(enum place place, size_t from, size_t to) {
    return memcmp(copies[place] + from, writable[place] + from, to - from) == 0;
}

bool all_kept(void) {
    for (size_t i = 0; i < lent_count; i++)
        if (!same(lents[i].place, before(lents[i].from), behind(lents[i].place, lents[i].to)))
            return false;
    return true;
}

bool surroundings_kept(void) {
    for (size_t i = 0; i < lent_count; i++) {
        struct lent l = lents[i];
        if (!same(l.place, before(l.from), l.from) || !same(l.place, l.to, behind(l.place, l.to)))
            return false;
    }
    return true;
}

static struct lent lent_of(enum place place) {
    for (size_t i = 0; i < lent_count; i++)
        if (lents[i].place == place)
            return lents[i];
    abort();
}

bool kept_from(enum place place, size_t bytes) {
    struct lent l = lent_of(place);
    return same(place, l.from + bytes, l.to);
}

const void *lent_now(enum place place) { return writable[place] + lent_of(place).from; }

const void *lent_before(enum place place) { return copies[place] + lent_of(place).from; }

size_t altered_in(enum place place) {
    struct lent l = lent_of(place);
    size_t count = 0;
    for (size_t i = l.from; i < l.to; i += sizeof(uint32_t))
        count += memcmp(copies[place] + i, writable[place] + i, sizeof(uint32_t)) != 0;
    return count;
}

/* Whether an array of numbers is as before outside this part of it. */
bool kept_outside(enum place place, size_t from, size_t to) {
    struct lent l = lent_of(place);
    return same(place, l.from, l.from + from * sizeof(uint32_t)) && same(place, l.from + to * sizeof(uint32_t), l.to);
}
