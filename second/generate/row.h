#ifndef SECOND_GENERATE_ROW_H
#define SECOND_GENERATE_ROW_H

#include "../server/row.h"

/*
 * Makes a row in range, fresh, with few components or with all. Its fields go together in no other way than 19 asks: a
 * direction is described without a port, one that is not has an address, a removed component has rates and is described.
 */
void second_generate_row(uint64_t *seed, struct second_row *row);

/* Changes some fields or bits of a row, which mostly puts it out of range. */
void second_damage_row(uint64_t *seed, struct second_row *row);

#endif
