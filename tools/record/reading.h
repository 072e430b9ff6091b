/* The records of a file. */
#ifndef READING_H
#define READING_H

#include "recording.h"

/* A record that is whole: its number, and where it is in the ring. */
struct entry {
    uint64_t number, at;
};

/* All that are whole, in the order of their numbers, and what is said of the file. */
struct reading {
    uint8_t *file;
    const uint8_t *ring;
    uint64_t bytes; /* of the ring, as far as it is there */
    struct head head;
    struct entry *entries;
    size_t count;
    bool is_cut;
};

/* Reads a file, or ends the program with a sentence. */
void read_recording(struct reading *reading, const char *path);

struct record record_at(const struct reading *reading, uint64_t at);
struct reader contents_at(const struct reading *reading, uint64_t at);

/* How many records from this one on have numbers that follow each other. */
size_t run_from(const struct reading *reading, size_t first);

/* Where the record after this one begins or began, as a byte of the file. */
uint64_t behind(const struct reading *reading, size_t entry);

/* Whether the record behind the last one was begun. */
bool is_torn(const struct reading *reading);

#endif
