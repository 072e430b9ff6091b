/* A recording as a call script, on standard output. */
#ifndef SCRIPT_H
#define SCRIPT_H

#include "play.h"

/* The line of a call that is about to be made, with the lends that it needs; a comment where it has none. */
void script_call(const struct play *p);

/* A comment with what it gave. */
void script_given(const struct play *p, const struct play *given, uint64_t number);

#endif
