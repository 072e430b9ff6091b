/* What the wrapper of each call tells the recorder, in this order: the call begins; its arguments; it was made; what it
 * wrote and gave; it ended. */
#ifndef RECORDER_H
#define RECORDER_H

#include "recording.h"
#include "roqshyn.h"

/* The contents of the call's record: numbers are put there. Null where nothing is recorded, and then nothing else may
 * be told of the call. */
struct bytes *record_begin(uint32_t call);

/* A start: stores and screens may be others from now on, also at addresses that are known. */
void record_start(void);
void record_session(const RoqSession *s);
void record_memory(enum memory what, const uint32_t *at, size_t len);

/* An array that the call only reads, and one that it writes, of elements of `each` bytes. */
void record_read(const void *at, size_t len, size_t each);
void record_lent(const void *at, size_t len, size_t each);

/* What it wrote to such an array; and to a store or a screen, where that is asked for. */
void record_written(const void *at, size_t len, size_t each);
void record_drawn(const void *at, size_t len, size_t each);
void record_end(void);

#endif
