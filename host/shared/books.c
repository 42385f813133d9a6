#include "books.h"

#include "rows.h"

#include <string.h>

static void lend_rows(struct books *books, uint64_t count)
{
    if (!books->lent.map)
        make_guard_for(&books->lent, ROWS_ROOM * sizeof books->proved[0]);
    books->count = count;
    books->proved = (void *)guard_bytes(&books->lent, (size_t)count * sizeof books->proved[0]);
    if (count == 0)
        books->proved = NULL;
}

void fresh_books(struct books *books, uint64_t count)
{
    lend_rows(books, count);
    if (count > 0)
        memset(books->proved, 0, (size_t)count * sizeof books->proved[0]);
    memset(books->second, 0, sizeof books->second);
}

void set_row(struct books *books, uint64_t number, const struct frumxadda_row *row)
{
    books->proved[number] = *row;
    row_to_second(row, &books->second[number]);
}

void copy_books(struct books *to, const struct books *from)
{
    lend_rows(to, from->count);
    if (from->count > 0)
        memcpy(to->proved, from->proved, (size_t)from->count * sizeof to->proved[0]);
    memcpy(to->second, from->second, sizeof to->second);
}

struct frumxadda_rates booked_in_all(const struct frumxadda_row *rows, uint64_t count)
{
    struct frumxadda_rates sum = { 0, 0 };

    for (uint64_t i = 0; i < 8 * count; i++) {
        const struct frumxadda_component *component = &rows[i / 8].held.components[i % 8];
        sum.up += component->up.media + component->up.rtcp;
        sum.down += component->down.media + component->down.rtcp;
    }
    return sum;
}
