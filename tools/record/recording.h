/* The file of a recording, as recorder and player see it; docs/RECORDING.md has the format in a table. Numbers lie as
 * an x86-64 has them. */
#ifndef RECORDING_H
#define RECORDING_H

#include <stdbool.h>
#include <stddef.h>
#include <stdint.h>

enum { VERSION = 1, RING_AT = 64, LEAST_BYTES = 65536 };

static const char MAGIC[16] = "roqshyn calls\r\n";

/* The first bytes of the file. `id` is another one in each recording; `sum` is of all before it. */
struct head {
    char magic[16];
    uint32_t version, session_bytes;
    uint64_t ring_bytes, id, sum;
};

enum kind {
    SNAPSHOT = 1, /* the time of day: from here on all memory is written again when it is next lent */
    MEMORY,       /* a session, a store or a screen as it was lent to the next call */
    CALL,
    WRAP,   /* the next record is at the ring's front */
    CLOSED, /* with nothing, or a sentence that says why the recording ended here */
    KINDS
};

/* What comes before a record's contents, which are filled up with zeros to 8 bytes. `size` counts both. `sum` is
 * written last, and the number first: a record that was begun and not finished has its number and another sum. */
struct record {
    uint32_t size, kind;
    uint64_t number, sum;
};

/* What has a number from 0 on, and is known by its address. */
enum memory { SESSION = 1, STORE, SCREEN, MEMORIES };
enum { MOST_MEMORIES = 256 };

/* Why memory is written. */
enum why {
    NEW = 1, /* it was not lent before, or not in this length */
    AGAIN,   /* it is known, and a snapshot is made */
    CHANGED, /* somebody else wrote it between two calls, such as by a copy of a session */
    WHYS
};

/* Contents that grow. */
struct bytes {
    uint8_t *at;
    size_t len, room;
    bool failed; /* there was no memory for them */
};

void put(struct bytes *b, const void *from, size_t len);
void put_u32(struct bytes *b, uint32_t n);
void put_u64(struct bytes *b, uint64_t n);

/* Words as runs: a number 2n + 1 and a word stand for n such words, a number 2n and n words for these. */
void put_words(struct bytes *b, const uint32_t *words, size_t count);

/* Contents that are read. What is not there reads as 0, and `failed` says so. */
struct reader {
    const uint8_t *at;
    size_t left;
    bool failed;
};

void get(struct reader *r, void *to, size_t len);
uint32_t get_u32(struct reader *r);
uint64_t get_u64(struct reader *r);
void get_words(struct reader *r, uint32_t *words, size_t count);

/* A sum over bytes, which another byte, or several within 8, always change. */
uint64_t summed(uint64_t sum, const void *from, size_t len);

/* That of a record with these contents, in a recording with this id. */
uint64_t sum_of(uint64_t id, const struct record *r, const void *contents);

#endif
