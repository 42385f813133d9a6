#ifndef SHARED_BOOKS_H
#define SHARED_BOOKS_H

#include "../../second/server/book.h"
#include "guard.h"

#include <frumxadda.h>

/* One row more than may be lent. */
enum { ROWS_ROOM = 17 };

/* The same book on both sides. It is static, so that it starts as zeros; then comes fresh_books. */
struct books {
    uint64_t count;
    struct guarded lent;
    struct frumxadda_row *proved; /* the rows lent, which end at a guard; NULL where there are none */
    struct second_row second[ROWS_ROOM];
};

/* Fresh rows, 0 to 17 of them. */
void fresh_books(struct books *books, uint64_t count);

/* From the row of frumxadda to both. */
void set_row(struct books *books, uint64_t number, const struct frumxadda_row *row);

void copy_books(struct books *to, const struct books *from);

/* The sums over the library's rows. */
struct frumxadda_rates booked_in_all(const struct frumxadda_row *rows, uint64_t count);

#endif
