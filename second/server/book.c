#include "book.h"

#include "statement.h"

#include <string.h>

enum {
    CALL_UNKNOWN = 10, OFFER_OPEN, NO_OFFER, NOTHING_COMPLETED, OFFER_FEWER, POOL_FULL = 16, BEARER_SET = 18,
    ROW_OUT_OF_RANGE, STATEMENT_TOO_LONG
};

static struct second_reply refused(uint64_t refusal, uint64_t place)
{
    return (struct second_reply) { .refusal = refusal, .place = place };
}

/* 10 and 19, with which each call begins; after them booked is what all rows have booked. */
static uint64_t first_refusal(struct second_book book, uint64_t session, bool known, struct second_rates *booked)
{
    if (book.count == 0 || book.count > SECOND_BOOK_ROWS || session >= book.count || !known)
        return CALL_UNKNOWN;
    struct second_look look = second_look(book.rows, book.count);
    *booked = look.booked;
    return look.in_range ? 0 : ROW_OUT_OF_RANGE;
}

struct second_reply second_offer(struct second_book book, uint64_t session, uint64_t origin, const uint8_t *text,
    size_t len)
{
    struct second_rates booked;
    uint64_t refusal = first_refusal(book, session, origin <= 1, &booked);
    struct second_text read;

    if (refusal != 0)
        return refused(refusal, 0);
    struct second_row *row = &book.rows[session];
    if (row->present)
        return refused(OFFER_OPEN, 0);
    second_read_text(text, len, &read);
    if (read.refusal != 0)
        return refused(read.refusal, read.place);
    if (read.count < row->count)
        return refused(OFFER_FEWER, 0);
    second_open(row, origin, &read);
    return refused(0, 0);
}

struct second_rates second_booked_in_all(struct second_book book)
{
    struct second_rates sum = { 0, 0 };

    for (uint64_t i = 0; i < book.count; i++) {
        struct second_rates booked = second_booked(&book.rows[i]);
        sum.up += booked.up;
        sum.down += booked.down;
    }
    return sum;
}

static struct second_reply changed(struct second_rates was, struct second_rates now)
{
    return (struct second_reply) {
        .change_up = (int64_t)now.up - (int64_t)was.up,
        .change_down = (int64_t)now.down - (int64_t)was.down,
    };
}

/* The exchange is derived aside, as 16 leaves the row unchanged; total is what all rows have booked before it. */
static struct second_reply complete(struct second_row *row, const struct second_state *state, struct second_rates total,
    struct second_pool pool)
{
    struct second_rates was = second_booked(row), now = second_sum(state->components, state->count);

    if (total.up - was.up + now.up > pool.up || total.down - was.down + now.down > pool.down)
        return refused(POOL_FULL, 0);
    second_complete(row, state);
    return changed(was, now);
}

struct second_reply second_answer(struct second_book book, const struct second_settings *settings,
    struct second_pool pool, uint64_t session, const uint8_t *text, size_t len)
{
    struct second_rates booked;
    uint64_t refusal = first_refusal(book, session, true, &booked);
    struct second_media media[8];
    struct second_before before;
    struct second_state state;
    struct second_text read;

    if (refusal != 0)
        return refused(refusal, 0);
    struct second_row *row = &book.rows[session];
    if (!row->present)
        return refused(NO_OFFER, 0);
    second_read_text(text, len, &read);
    if (read.refusal != 0)
        return refused(read.refusal, read.place);
    struct second_sections offer = second_offered(row, media), answer = second_sections(&read);
    struct second_fit fit = second_fit(offer, answer);
    if (fit.refusal != 0)
        return refused(fit.refusal, fit.place);
    second_before_of(row->kept, row->components, row->count, &before);
    second_derive_into(settings, row->origin, &before, offer, answer, &state);
    return complete(row, &state, booked, pool);
}

struct second_reply second_cancel(struct second_book book, uint64_t session)
{
    struct second_rates booked;
    uint64_t refusal = first_refusal(book, session, true, &booked);

    if (refusal != 0)
        return refused(refusal, 0);
    if (!book.rows[session].present)
        return refused(NO_OFFER, 0);
    second_drop(&book.rows[session]);
    return refused(0, 0);
}

struct second_reply second_close(struct second_book book, uint64_t session)
{
    struct second_rates booked;
    uint64_t refusal = first_refusal(book, session, true, &booked);

    if (refusal != 0)
        return refused(refusal, 0);
    struct second_row *row = &book.rows[session];
    if (row->present)
        return refused(OFFER_OPEN, 0);
    if (!row->completed)
        return refused(NOTHING_COMPLETED, 0);
    struct second_rates was = second_booked(row);
    second_clear(row);
    return changed(was, (struct second_rates) { 0, 0 });
}

static bool bearer_class(uint64_t class_number)
{
    return class_number == 2 || class_number == 4 || class_number == 6 || class_number == 8 || class_number == 9;
}

struct second_reply second_bearer(struct second_book book, uint64_t session, const struct second_asked *asked)
{
    struct second_rates booked;
    uint64_t refusal = first_refusal(book, session, bearer_class(asked->class_number), &booked);

    if (refusal != 0)
        return refused(refusal, 0);
    const struct second_row *row = &book.rows[session];
    if (!row->completed)
        return refused(NOTHING_COMPLETED, 0);
    struct second_authorised authorised = second_authorise_over(row->components, row->count, asked);
    if (authorised.refusal == BEARER_SET)
        return refused(BEARER_SET, 0);
    return (struct second_reply) { .refusal = authorised.refusal, .class_number = authorised.class_number,
        .up = authorised.up, .down = authorised.down };
}

/* Written aside where only the statement itself tells whether it fits. */
static struct second_reply write_aside(const struct second_row *row, uint8_t *out, size_t room)
{
    uint8_t statement[SECOND_STATEMENT_BYTES];
    size_t len = second_write_statement(row, statement);

    if (len > room)
        return (struct second_reply) { .refusal = STATEMENT_TOO_LONG, .length = len };
    memcpy(out, statement, len);
    return (struct second_reply) { .length = len };
}

struct second_reply second_statement(struct second_book book, uint64_t session, uint8_t *out, size_t room)
{
    struct second_rates booked;
    uint64_t refusal = first_refusal(book, session, true, &booked);

    if (refusal != 0)
        return refused(refusal, 0);
    const struct second_row *row = &book.rows[session];
    if (!row->completed)
        return refused(NOTHING_COMPLETED, 0);
    if (room < SECOND_STATEMENT_BYTES)
        return write_aside(row, out, room);
    return (struct second_reply) { .length = second_write_statement(row, out) };
}

struct second_reply second_play(struct second_book book, const struct second_ask *ask, uint8_t *out)
{
    switch (ask->letter) {
    case SECOND_OFFER:
        return second_offer(book, ask->session, ask->origin, ask->text, ask->len);
    case SECOND_ANSWER:
        return second_answer(book, &ask->settings, ask->pool, ask->session, ask->text, ask->len);
    case SECOND_CANCEL:
        return second_cancel(book, ask->session);
    case SECOND_CLOSE:
        return second_close(book, ask->session);
    case SECOND_BEARER:
        return second_bearer(book, ask->session, &ask->asked);
    default:
        return second_statement(book, ask->session, out, ask->room);
    }
}
