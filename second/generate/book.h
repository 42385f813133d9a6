#ifndef SECOND_GENERATE_BOOK_H
#define SECOND_GENERATE_BOOK_H

#include "../server/book.h"
#include "flow.h"

/* A session's exchange that is offered or was answered last. */
struct second_talk {
    struct second_call call;
    struct second_exchange exchange;
    bool answered; /* whether its answer was given since the offer was made */
};

/* Calls of some sessions that cross; only the seed need be set at first. */
struct second_evening {
    uint64_t seed;
    unsigned rows; /* 1 to 16 */
    struct second_settings settings;
    struct second_pool pool;
    struct second_talk talks[SECOND_BOOK_ROWS];
    uint8_t text[SECOND_GENERATED_BYTES];
};

struct second_settings second_draw_settings(uint64_t *seed);
struct second_pool second_draw_pool(uint64_t *seed);

/* The next call of a session, mostly one that fits its row. */
enum second_letter second_draw_letter(uint64_t *seed, const struct second_row *row);

/* A bearer, mostly at or one above what is authorised over the set it names. */
struct second_asked second_draw_asked(uint64_t *seed, const struct second_row *row);

/* Draws rows and settings for a fresh book, and moves the seed on. */
void second_start_evening(struct second_evening *evening);

/*
 * Makes the next call, from the book as it stands: mostly one that fits it, some of each refusal but 19.
 * The text of the call is kept in the evening, up to the next one.
 */
void second_generate_ask(struct second_evening *evening, const struct second_row *rows, struct second_ask *ask);

#endif
