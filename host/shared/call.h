#ifndef SHARED_CALL_H
#define SHARED_CALL_H

#include "../../second/server/book.h"

#include <frumxadda.h>

/* A call as the library takes it; out, with the room of the call, is for a statement. */
struct frumxadda_reply lent_call(struct frumxadda_row *rows, size_t count, const struct second_ask *ask, uint8_t *out);

#endif
