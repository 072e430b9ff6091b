/* Finds the records of a file, whatever its bytes are. */
#include "reading.h"
#include "play.h"

#include <errno.h>
#include <stdio.h>
#include <stdlib.h>
#include <string.h>

static uint8_t *contents_of(const char *path, size_t *len) {
    struct bytes all = {0};
    static uint8_t block[1 << 16];
    FILE *file = fopen(path, "rb");
    size_t got;
    if (file == NULL)
        fail(2, "%s: %s", path, strerror(errno));
    while ((got = fread(block, 1, sizeof block, file)) != 0)
        put(&all, block, got);
    if (ferror(file) != 0)
        fail(2, "%s: %s", path, strerror(errno));
    fclose(file);
    if (all.failed)
        fail(2, "%s is larger than the memory", path);
    *len = all.len;
    return all.at;
}

static void read_head(struct reading *r, const char *path, size_t len) {
    size_t magic = len < sizeof MAGIC ? len : sizeof MAGIC;
    if (magic == 0 || memcmp(r->file, MAGIC, magic) != 0)
        fail(2, "%s is no recording", path);
    if (len < RING_AT)
        fail(2, "%s is cut off: it has %zu bytes, and a recording at least %d", path, len, LEAST_BYTES);
    memcpy(&r->head, r->file, sizeof r->head);
    if (r->head.sum != summed(1, &r->head, offsetof(struct head, sum)))
        fail(2, "%s is damaged in its first %zu bytes, which every record needs", path, sizeof r->head);
    if (r->head.version != VERSION)
        fail(2, "%s is a recording of version %u, and this player knows version %d", path, r->head.version, VERSION);
    if (r->head.session_bytes != sizeof(RoqSession))
        fail(2, "%s has sessions of %u bytes, and those of this library have %zu: play it with its own", path,
             r->head.session_bytes, sizeof(RoqSession));
}

struct record record_at(const struct reading *r, uint64_t at) {
    struct record record;
    memcpy(&record, r->ring + at, sizeof record);
    return record;
}

struct reader contents_at(const struct reading *r, uint64_t at) {
    struct record record = record_at(r, at);
    struct reader contents = {r->ring + at + sizeof record, record.size - sizeof record, false};
    return contents;
}

static bool is_whole(const struct reading *r, uint64_t at) {
    struct record record = record_at(r, at);
    if (record.kind == 0 || record.kind >= KINDS || record.number == 0 || record.size % 8 != 0)
        return false;
    if (record.size < sizeof record || record.size > r->bytes - at)
        return false;
    return record.sum == sum_of(r->head.id, &record, r->ring + at + sizeof record);
}

static int by_number(const void *a, const void *b) {
    uint64_t m = ((const struct entry *)a)->number, n = ((const struct entry *)b)->number;
    return (m > n) - (m < n);
}

static void find_records(struct reading *r) {
    struct bytes found = {0};
    for (uint64_t at = 0; r->bytes - at >= sizeof(struct record);) {
        struct record record = record_at(r, at);
        bool whole = is_whole(r, at);
        struct entry entry = {record.number, at};
        if (whole)
            put(&found, &entry, sizeof entry);
        at += whole ? record.size : 8;
    }
    if (found.failed)
        fail(2, "there is no memory for the file's records");
    r->entries = (struct entry *)(void *)found.at;
    r->count = found.len / sizeof *r->entries;
    if (r->count != 0)
        qsort(r->entries, r->count, sizeof *r->entries, by_number);
}

void read_recording(struct reading *r, const char *path) {
    size_t len;
    memset(r, 0, sizeof *r);
    r->file = contents_of(path, &len);
    read_head(r, path, len);
    r->ring = r->file + RING_AT;
    r->is_cut = len - RING_AT < r->head.ring_bytes;
    r->bytes = (r->is_cut ? len - RING_AT : r->head.ring_bytes) / 8 * 8;
    find_records(r);
}

size_t run_from(const struct reading *r, size_t first) {
    size_t n = 1;
    while (first + n < r->count && r->entries[first + n].number == r->entries[first].number + n)
        n++;
    return n;
}

/* Where the next record is: at the front where this one says so, or where there is no room for another one. */
static uint64_t next_at(const struct reading *r, size_t entry) {
    uint64_t at = r->entries[entry].at;
    struct record record = record_at(r, at);
    at += record.size;
    return record.kind == WRAP || r->head.ring_bytes - at < sizeof record ? 0 : at;
}

uint64_t behind(const struct reading *r, size_t entry) { return RING_AT + next_at(r, entry); }

bool is_torn(const struct reading *r) {
    if (r->count == 0)
        return false;
    uint64_t at = next_at(r, r->count - 1);
    return r->bytes - at >= sizeof(struct record) && record_at(r, at).number == r->entries[r->count - 1].number + 1;
}
