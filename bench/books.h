#ifndef BENCH_BOOKS_H
#define BENCH_BOOKS_H

#include "../second/generate/write_text.h"
#include "../second/server/book.h"
#include "measure.h"

#include <frumxadda.h>

/* The room for a statement is what the header tells hosts. */
enum { BOOK_ROWS = 16, STATEMENT_ROOM = 509 };

/* The same book on both sides, two of its sessions, and the texts of calls on them. */
struct book {
    const char *name;
    unsigned quiet, open; /* sessions without and with an open offer */
    struct frumxadda_row proved[BOOK_ROWS];
    struct second_row second[BOOK_ROWS];
    uint8_t texts[9][2][SECOND_WRITTEN_BYTES]; /* by components, offer and answer */
    size_t lens[9][2];
};

/* Every session has 8 components, and every second one an open offer of 8 media. As below: false where a call is refused. */
bool fill_book(struct book *book);

/* An ordinary evening: 1 or 2 components, and in every fourth session an open offer of 1 or 2 media. */
bool fill_evening(struct book *book);

/* A call of a session, its texts with as many components as the session has. */
struct second_ask make_ask(const struct book *book, enum second_letter letter, unsigned session);

/* Makes the call on both sides; whether answers and rows are the same, and the refusal is this. */
bool answered(struct book *book, const struct second_ask *ask, uint64_t refusal);

/* A line of the table, with the name of the book. */
void print_of(const struct book *book, const char *what, struct measured measured);

#endif
