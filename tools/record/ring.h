/* The file that a recorder writes. */
#ifndef RING_H
#define RING_H

#include "recording.h"

/* Makes the file; null, or a sentence. */
const char *ring_open(const char *path, uint64_t bytes, uint32_t session_bytes);
bool ring_is_open(void);

/* How many bytes its records may have. */
uint64_t ring_bytes(void);

/* How many bytes were written so far. */
uint64_t ring_written(void);

/* Appends a record, over the oldest ones. It has at most half the ring's bytes. */
void ring_append(enum kind kind, struct bytes *contents);
void ring_close(void);

#endif
