/* Which library it is: always the one of this header. */
#include "hostile_calls.h"

void call_version(void) {
    expect(accepted(ROQ_OK, ROQ_OK) && roq_version() == ROQ_VERSION, "it is the version of another header");
}

void call_session_size(void) {
    expect(accepted(ROQ_OK, ROQ_OK) && roq_session_size() == sizeof(RoqSession), "it is the size of another session");
}
