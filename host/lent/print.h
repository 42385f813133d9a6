#ifndef LENT_PRINT_H
#define LENT_PRINT_H

#include "../../second/server/book.h"
#include "fields.h"

void print_call(const struct second_ask *ask, uint64_t rows);
void print_reply(const char *name, const struct frumxadda_reply *reply);

/* Its part and name. */
void print_field(const struct field *field);

/* Its fields that are not 0. */
void print_row(const char *name, uint64_t number, const struct frumxadda_row *row);

/* The fields in which the rows differ. */
void print_row_difference(uint64_t number, const struct frumxadda_row *proved, const struct frumxadda_row *second);

#endif
