/* The ring is mapped: what was written before the process was killed is in the file, without a call of the system for
 * each record. All of it is reserved on the disk first, since a page that has no place there would end the process. */
#define _POSIX_C_SOURCE 200809L
#include "ring.h"

#include <errno.h>
#include <fcntl.h>
#include <stdatomic.h>
#include <stdio.h>
#include <string.h>
#include <sys/mman.h>
#include <time.h>
#include <unistd.h>

static struct {
    uint8_t *file, *ring;
    uint64_t file_bytes, bytes, at, number, id, written;
} ring;

static char said[256];

static const char *say(const char *path, int error) {
    snprintf(said, sizeof said, "nothing is recorded: %s: %s", path, strerror(error));
    return said;
}

static void *mapped(int file, uint64_t bytes) {
    return mmap(NULL, bytes, PROT_READ | PROT_WRITE, MAP_SHARED, file, 0);
}

static void write_head(uint32_t session_bytes) {
    struct timespec now;
    struct head head = {.version = VERSION, .session_bytes = session_bytes, .ring_bytes = ring.bytes};
    clock_gettime(CLOCK_REALTIME, &now);
    uint64_t seed[3] = {(uint64_t)now.tv_sec, (uint64_t)now.tv_nsec, (uint64_t)getpid()};
    memcpy(head.magic, MAGIC, sizeof head.magic);
    head.id = ring.id = summed(1, seed, sizeof seed);
    head.sum = summed(1, &head, offsetof(struct head, sum));
    memcpy(ring.file, &head, sizeof head);
}

const char *ring_open(const char *path, uint64_t bytes, uint32_t session_bytes) {
    if (bytes < LEAST_BYTES || bytes > INT64_MAX) {
        snprintf(said, sizeof said, "nothing is recorded: a recording has at least %d bytes", LEAST_BYTES);
        return said;
    }
    int file = open(path, O_RDWR | O_CREAT | O_TRUNC | O_CLOEXEC, 0644);
    if (file < 0)
        return say(path, errno);
    int error = posix_fallocate(file, 0, (off_t)bytes);
    uint8_t *at = error == 0 ? mapped(file, bytes) : MAP_FAILED;
    if (error == 0 && at == MAP_FAILED)
        error = errno;
    close(file);
    if (error != 0) {
        unlink(path);
        return say(path, error);
    }
    memset(&ring, 0, sizeof ring);
    ring.file = at;
    ring.ring = at + RING_AT;
    ring.file_bytes = bytes;
    ring.bytes = (bytes - RING_AT) / 8 * 8;
    write_head(session_bytes);
    return NULL;
}

bool ring_is_open(void) { return ring.file != NULL; }

uint64_t ring_bytes(void) { return ring.bytes; }

uint64_t ring_written(void) { return ring.written; }

/* The number first, the sum last: whoever is killed between them leaves a record that is seen not to be finished. */
static void write_record(struct record r, const uint8_t *contents) {
    uint8_t *at = ring.ring + ring.at;
    uint64_t none = 0;
    r.number = ++ring.number;
    r.sum = sum_of(ring.id, &r, contents);
    memcpy(at + offsetof(struct record, sum), &none, sizeof none);
    atomic_signal_fence(memory_order_seq_cst);
    memcpy(at, &r, offsetof(struct record, sum));
    atomic_signal_fence(memory_order_seq_cst);
    if (r.size != sizeof r)
        memcpy(at + sizeof r, contents, r.size - sizeof r);
    atomic_signal_fence(memory_order_seq_cst);
    memcpy(at + offsetof(struct record, sum), &r.sum, sizeof r.sum);
    ring.at += r.size;
}

/* Goes to the front, and says so where there is room for it. The rest becomes zeros, so that no older record stays
 * behind newer ones: the numbers of all records that are whole follow each other. */
static void wrap(void) {
    struct record r = {.size = sizeof r, .kind = WRAP};
    memset(ring.ring + ring.at, 0, ring.bytes - ring.at);
    atomic_signal_fence(memory_order_seq_cst);
    ring.written += ring.bytes - ring.at;
    if (ring.bytes - ring.at >= sizeof r)
        write_record(r, NULL);
    ring.at = 0;
}

void ring_append(enum kind kind, struct bytes *contents) {
    static const uint8_t zeros[8];
    put(contents, zeros, (8 - contents->len % 8) % 8);
    struct record r = {.size = (uint32_t)(sizeof r + contents->len), .kind = kind};
    if (ring.bytes - ring.at < r.size)
        wrap();
    ring.written += r.size;
    write_record(r, contents->at);
}

void ring_close(void) {
    munmap(ring.file, ring.file_bytes);
    ring.file = NULL;
}
