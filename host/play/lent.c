#include "lent.h"

#include "../../second/server/calls.h"
#include "../../second/server/evening.h"
#include "../../second/server/statement.h"
#include "../shared/books.h"
#include "../shared/call.h"
#include "../shared/rows.h"

#include <inttypes.h>
#include <stdarg.h>
#include <stdio.h>
#include <string.h>

static struct books books;
static struct guarded text;

/* Where the output goes on, and the changes so far. */
struct output {
    char *at, *end;
    struct frumxadda_change sum;
};

/* What does not fit is cut off: no right output is that long. */
static void put(struct output *output, const char *format, ...)
{
    size_t room = (size_t)(output->end - output->at);
    va_list arguments;

    va_start(arguments, format);
    size_t len = (size_t)vsnprintf(output->at, room, format, arguments);
    va_end(arguments);
    output->at += len < room ? len : room;
}

void play_lent_start(void)
{
    make_guard_for(&text, SECOND_FILE_BYTES);
}

static void put_reply(struct output *output, enum second_letter letter, const struct frumxadda_reply *reply)
{
    put(output, "%c %" PRIu64 " %" PRIu64, second_letters[letter], reply->refusal, reply->place);
    if (letter == SECOND_ANSWER || letter == SECOND_CLOSE)
        put(output, " %" PRId64 " %" PRId64, reply->change.up, reply->change.down);
    if (letter == SECOND_BEARER)
        put(output, " %" PRIu64 " %" PRIu64 " %" PRIu64, reply->class_number, reply->granted.up, reply->granted.down);
    put(output, "\n");
}

/* A call file has no statements: in the end each session is stated, beside second's statement of the same row. */
static bool stated_alike(size_t session)
{
    const struct frumxadda_row *row = &books.proved[session];
    uint8_t proved[SECOND_STATEMENT_BYTES], second[SECOND_STATEMENT_BYTES];
    struct frumxadda_reply reply = frumxadda_statement(books.proved, SECOND_BOOK_ROWS, session, proved, sizeof proved);
    struct second_row other;

    if (!row->held.completed)
        return reply.refusal == 13 && reply.length == 0;
    row_to_second(row, &other);
    if (!second_in_range(&other))
        return false;
    size_t len = second_write_statement(&other, second);
    return reply.refusal == 0 && reply.length == len && memcmp(proved, second, len) == 0;
}

/* What the rows hold; a line more where the changes sum up to something else, a statement differs, or a canary is gone. */
static void put_booked(struct output *output)
{
    struct frumxadda_rates booked = booked_in_all(books.proved, books.count);

    put(output, "booked %" PRIu64 " %" PRIu64 "\n", booked.up, booked.down);
    if ((uint64_t)output->sum.up != booked.up || (uint64_t)output->sum.down != booked.down)
        put(output, "but changes %" PRId64 " %" PRId64 "\n", output->sum.up, output->sum.down);
    for (size_t i = 0; i < SECOND_BOOK_ROWS; i++)
        if (!stated_alike(i))
            put(output, "but the statement of session %zu differs\n", i);
    if (!guard_intact(&text) || !guard_intact(&books.lent))
        put(output, "but bytes in front changed\n");
}

size_t play_lent(const uint8_t *file, size_t len, uint8_t *out)
{
    static struct second_calls calls;
    struct output output = { .at = (char *)out, .end = (char *)out + SECOND_EVENING_BYTES };

    if (!second_read_calls(file, len, &calls)) {
        put(&output, "bad file\n");
        return (size_t)(output.at - (char *)out);
    }
    fresh_books(&books, SECOND_BOOK_ROWS);
    put(&output, "calls %" PRIu32 "\n", calls.call_count);
    for (uint32_t i = 0; i < calls.call_count; i++) {
        struct second_ask ask = second_call_ask(&calls, &calls.calls[i]);
        guard_text(&text, ask.text, ask.len);
        ask.text = text.text;
        struct frumxadda_reply reply = lent_call(books.proved, SECOND_BOOK_ROWS, &ask, NULL);
        put(&output, "%" PRIu32 " ", i + 1);
        put_reply(&output, ask.letter, &reply);
        output.sum.up += reply.change.up;
        output.sum.down += reply.change.down;
    }
    put_booked(&output);
    return (size_t)(output.at - (char *)out);
}
