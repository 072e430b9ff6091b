/* The recorder: a station that is linked with it writes every call of roqshyn.h to a file, which ./play-station plays.
 * docs/RECORDING.md says how it is linked, what it costs and what is in the file. */
#ifndef ROQSHYN_RECORD_H
#define ROQSHYN_RECORD_H

#include <stdint.h>

#ifdef __cplusplus
extern "C" {
#endif

/* Begins a recording: a file of exactly so many bytes, which is made anew, and in which the newest calls take the place
 * of the oldest. Null, or a sentence that says why nothing is recorded. A recording that is on is closed first. */
const char *roq_record_open(const char *path, uint64_t bytes);

/* Ends it. Null, or a sentence that says why the recording ended earlier. */
const char *roq_record_close(void);

#ifdef __cplusplus
}
#endif

#endif
