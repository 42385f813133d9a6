#ifndef SECOND_SERVER_BOOK_H
#define SECOND_SERVER_BOOK_H

#include "look.h"

enum { SECOND_BOOK_ROWS = 16 };

/* The book as lent: count rows stand at rows. Another count than 1 to 16 is refused, and then no row is read. */
struct second_book {
    struct second_row *rows;
    uint64_t count;
};

struct second_pool {
    uint32_t up, down;
};

/* The answer to any call; what a call does not answer is 0. */
struct second_reply {
    uint64_t refusal, place;
    int64_t change_up, change_down;
    uint64_t class_number, up, down; /* authorised */
    uint64_t length;
};

/* The sums over all rows, all of them in range. */
struct second_rates second_booked_in_all(struct second_book book);

struct second_reply second_offer(struct second_book book, uint64_t session, uint64_t origin, const uint8_t *text,
    size_t len);
struct second_reply second_answer(struct second_book book, const struct second_settings *settings,
    struct second_pool pool, uint64_t session, const uint8_t *text, size_t len);
struct second_reply second_cancel(struct second_book book, uint64_t session);
struct second_reply second_close(struct second_book book, uint64_t session);
struct second_reply second_bearer(struct second_book book, uint64_t session, const struct second_asked *asked);
struct second_reply second_statement(struct second_book book, uint64_t session, uint8_t *out, size_t room);

enum second_letter {
    SECOND_OFFER, SECOND_ANSWER, SECOND_CANCEL, SECOND_CLOSE, SECOND_BEARER, SECOND_STATEMENT, SECOND_LETTERS
};

/* Any of the six calls; what a call does not take is not looked at. */
struct second_ask {
    enum second_letter letter;
    uint64_t session, origin;
    struct second_settings settings;
    struct second_pool pool;
    struct second_asked asked;
    const uint8_t *text;
    size_t len;
    size_t room; /* of the buffer for a statement */
};

struct second_reply second_play(struct second_book book, const struct second_ask *ask, uint8_t *out);

#endif
