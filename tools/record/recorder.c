/* Which memory the calls were lent, and what is written of it. It is read only while it is lent: a snapshot is
 * therefore a mark in the file, after which each session, store and screen is written again when it is next lent. */
#define _POSIX_C_SOURCE 200809L
#include "recorder.h"
#include "ring.h"
#include "roqshyn_record.h"

#include <pthread.h>
#include <stdio.h>
#include <stdlib.h>
#include <string.h>
#include <time.h>

/* Memory that was lent, which has its place in `lents` for a number. A session is kept as its last call left it. */
static struct lent {
    enum memory what; /* 0 where the place is free */
    const void *at;
    size_t len;
    uint64_t snapshot, call; /* the last one that it was written for, and that it was lent to */
    RoqSession *kept;
    uint64_t sum; /* of a store or a screen as its last call left it, where sums are asked for */
} lents[MOST_MEMORIES];

static pthread_mutex_t turn = PTHREAD_MUTEX_INITIALIZER;
static struct bytes call, contents;
static struct lent *session;               /* that of the call */
static uint64_t snapshot, begun_at, calls; /* the last one, and where it begins */
static char problem[256];
static bool asked, sums; /* whether the environment was asked, and whether it has stores and screens summed up */

/* ---- The recording ---- */

static void write_snapshot(void) {
    struct timespec now;
    clock_gettime(CLOCK_REALTIME, &now);
    contents.len = 0;
    put_u64(&contents, (uint64_t)now.tv_sec);
    begun_at = ring_written();
    snapshot++;
    for (size_t i = 0; i < MOST_MEMORIES; i++)
        if (snapshot - lents[i].snapshot > 2)
            lents[i].what = 0;
    ring_append(SNAPSHOT, &contents);
}

static void end_recording(const char *why) {
    contents.len = 0;
    put(&contents, why, strlen(why));
    ring_append(CLOSED, &contents);
    ring_close();
    snprintf(problem, sizeof problem, "%s", why);
}

static const char *opened(const char *path, uint64_t bytes) {
    if (ring_is_open())
        end_recording("");
    problem[0] = 0;
    const char *why = ring_open(path, bytes, sizeof(RoqSession));
    if (why != NULL)
        return why;
    for (size_t i = 0; i < MOST_MEMORIES; i++)
        lents[i].what = 0;
    call.failed = contents.failed = false;
    sums = getenv("ROQSHYN_RECORD_SUMS") != NULL;
    write_snapshot();
    return NULL;
}

const char *roq_record_open(const char *path, uint64_t bytes) {
    pthread_mutex_lock(&turn);
    asked = true;
    const char *why = opened(path, bytes);
    pthread_mutex_unlock(&turn);
    return why;
}

const char *roq_record_close(void) {
    pthread_mutex_lock(&turn);
    if (ring_is_open())
        end_recording("");
    pthread_mutex_unlock(&turn);
    return problem[0] == 0 ? NULL : problem;
}

static void close_at_exit(void) { roq_record_close(); }

/* A program that opens no recording is recorded where its environment says so. */
static void ask_environment(void) {
    asked = true;
    const char *path = getenv("ROQSHYN_RECORD"), *bytes = getenv("ROQSHYN_RECORD_BYTES");
    if (path == NULL || path[0] == 0)
        return;
    const char *why = opened(path, bytes == NULL ? 64 << 20 : strtoull(bytes, NULL, 10));
    if (why != NULL)
        fprintf(stderr, "%s\n", why);
    else
        atexit(close_at_exit);
}

/* ---- Memory ---- */

static size_t bytes_of(const struct lent *l) {
    return l->what == SESSION ? sizeof(RoqSession) : l->len * sizeof(uint32_t);
}

/* Memory that lies over these bytes is forgotten: it is written anew when it is next lent. */
static void forget_under(const void *at, size_t bytes, const struct lent *but) {
    const uint8_t *from = at;
    for (size_t i = 0; i < MOST_MEMORIES; i++) {
        const uint8_t *other = lents[i].at;
        bool meets = other < from + bytes && from < other + bytes_of(&lents[i]);
        if (lents[i].what != 0 && &lents[i] != but && bytes != 0 && meets)
            lents[i].what = 0;
    }
}

static struct lent *found(enum memory what, const void *at) {
    for (size_t i = 0; i < MOST_MEMORIES; i++)
        if (lents[i].what == what && lents[i].at == at)
            return &lents[i];
    return NULL;
}

/* A free place, or that of the memory that was lent longest ago. */
static struct lent *free_place(void) {
    struct lent *oldest = &lents[0];
    for (size_t i = 0; i < MOST_MEMORIES; i++) {
        if (lents[i].what == 0)
            return &lents[i];
        if (lents[i].call < oldest->call)
            oldest = &lents[i];
    }
    return oldest;
}

/* How many bytes a snapshot has that is not packed. */
static uint64_t in_snapshot(void) {
    uint64_t bytes = 0;
    for (size_t i = 0; i < MOST_MEMORIES; i++)
        if (lents[i].what != 0 && lents[i].snapshot == snapshot)
            bytes += bytes_of(&lents[i]) + 64;
    return bytes;
}

/* Writes memory to the ring, if two snapshots of it have room there. */
static void write_memory(struct lent *l, enum why why) {
    l->snapshot = snapshot;
    if (in_snapshot() > ring_bytes() / 2 || in_snapshot() > UINT32_MAX / 2) {
        end_recording("the file is too small for two snapshots of the sessions, stores and screens that are lent");
        return;
    }
    contents.len = 0;
    put_u32(&contents, (uint32_t)(l - lents));
    put_u32(&contents, l->what);
    put_u32(&contents, why);
    put_u64(&contents, bytes_of(l) / sizeof(uint32_t));
    put_words(&contents, l->at, bytes_of(l) / sizeof(uint32_t));
    if (contents.failed)
        end_recording("there was no memory left for the recorder");
    else
        ring_append(MEMORY, &contents);
}

static struct lent *added(enum memory what, const void *at, size_t len) {
    struct lent *l = free_place();
    l->what = what;
    l->at = at;
    l->len = len;
    write_memory(l, NEW);
    return l;
}

/* ---- A call ---- */

struct bytes *record_begin(uint32_t name) {
    pthread_mutex_lock(&turn);
    if (!asked)
        ask_environment();
    if (!ring_is_open()) {
        pthread_mutex_unlock(&turn);
        return NULL;
    }
    if (ring_written() - begun_at > ring_bytes() / 3)
        write_snapshot();
    session = NULL;
    calls++;
    call.len = 0;
    put_u32(&call, name);
    return &call;
}

void record_start(void) {
    for (size_t i = 0; i < MOST_MEMORIES; i++)
        if (lents[i].what != SESSION)
            lents[i].what = 0;
}

void record_session(const RoqSession *s) {
    if (!ring_is_open())
        return;
    struct lent *l = found(SESSION, s);
    if (l == NULL)
        l = added(SESSION, s, 0);
    else if (l->kept == NULL || memcmp(l->kept, s, sizeof *s) != 0)
        write_memory(l, CHANGED);
    else if (l->snapshot != snapshot)
        write_memory(l, AGAIN);
    l->call = calls;
    forget_under(s, sizeof *s, l);
    session = l;
    put_u32(&call, (uint32_t)(l - lents));
}

/* Memory of another length is new where all of it would be read: only what is lent now may be. */
static bool is_new(const struct lent *l, size_t len) {
    return l == NULL || l->len < len || (l->len != len && (sums || l->snapshot != snapshot));
}

void record_memory(enum memory what, const uint32_t *at, size_t len) {
    if (!ring_is_open())
        return;
    struct lent *l = found(what, at);
    uint64_t sum = sums ? summed(1, at, len * sizeof *at) : 0;
    if (is_new(l, len)) {
        if (l != NULL)
            l->what = 0;
        l = added(what, at, len);
    } else if (l->sum != sum) {
        write_memory(l, CHANGED);
    } else if (l->snapshot != snapshot) {
        write_memory(l, AGAIN);
    }
    l->sum = sum;
    l->call = calls;
    forget_under(at, len * sizeof *at, l);
    put_u32(&call, (uint32_t)(l - lents));
    put_u64(&call, len);
}

void record_read(const void *at, size_t len, size_t each) {
    put_u64(&call, len);
    if (each == sizeof(uint32_t))
        put_words(&call, at, len);
    else
        put(&call, at, len * each);
}

void record_lent(const void *at, size_t len, size_t each) {
    record_read(at, len, each);
    forget_under(at, len * each, NULL);
}

void record_written(const void *at, size_t len, size_t each) { put_u64(&call, summed(1, at, len * each)); }

void record_drawn(const void *at, size_t len, size_t each) {
    uint64_t sum = sums ? summed(1, at, len * each) : 0;
    for (size_t i = 0; i < MOST_MEMORIES; i++)
        if (lents[i].what != 0 && lents[i].at == at)
            lents[i].sum = sum;
    put_u64(&call, sum);
}

/* A copy of the session for the next call to be held against. */
static void keep_session(void) {
    if (session->kept == NULL)
        session->kept = malloc(sizeof(RoqSession));
    if (session->kept != NULL)
        memcpy(session->kept, session->at, sizeof(RoqSession));
}

void record_end(void) {
    if (ring_is_open() && (call.failed || call.len > ring_bytes() / 2 || call.len > UINT32_MAX / 2))
        end_recording(call.failed ? "there was no memory left for the recorder" : "the file is too small for a call");
    if (ring_is_open() && session != NULL)
        keep_session();
    if (ring_is_open())
        ring_append(CALL, &call);
    pthread_mutex_unlock(&turn);
}
