#ifndef SECOND_SERVER_LOOK_H
#define SECOND_SERVER_LOOK_H

#include "row.h"

/* Whether every field of all rows, whatever its bits, is in its range, else 19; then booked is what they have booked. */
struct second_look {
    bool in_range;
    struct second_rates booked;
};

/* One pass over that many rows. */
struct second_look second_look(const struct second_row *rows, uint64_t count);

/* The same of one row. */
bool second_in_range(const struct second_row *row);

#endif
