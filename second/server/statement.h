#ifndef SECOND_SERVER_STATEMENT_H
#define SECOND_SERVER_STATEMENT_H

#include "row.h"

/* That of eight application components with all rates at their tops. */
enum { SECOND_STATEMENT_BYTES = 509 };

/* Writes the statement of a row in range and returns its length. */
size_t second_write_statement(const struct second_row *row, uint8_t out[SECOND_STATEMENT_BYTES]);

#endif
