#include "evening.h"

#include "calls.h"
#include "number.h"

#include <assert.h>
#include <string.h>

/* The lines with every number at its longest: 5 digits of calls, 4 of a place, 10 of a rate and a sign. */
enum {
    FIRST_LINE_BYTES = sizeof "calls 12282\n" - 1,
    CALL_LINE_BYTES = sizeof "12282 A 15 1366 -4294967295 -4294967295\n" - 1,
    LAST_LINE_BYTES = sizeof "booked 4294967295 4294967295\n" - 1
};

_Static_assert((int)SECOND_EVENING_BYTES
        == FIRST_LINE_BYTES + (int)SECOND_FILE_CALLS * CALL_LINE_BYTES + LAST_LINE_BYTES,
    "the longest output");

/* The changes summed up, and where the output goes on. */
struct evening {
    int64_t up, down;
    uint8_t *at;
};

static void put_bytes(struct evening *evening, const char *bytes)
{
    size_t len = strlen(bytes);

    memcpy(evening->at, bytes, len);
    evening->at += len;
}

static void put_number(struct evening *evening, uint64_t number)
{
    evening->at = second_put_number(evening->at, number);
}

static void put_field(struct evening *evening, uint64_t number)
{
    *evening->at++ = ' ';
    put_number(evening, number);
}

static void put_signed_field(struct evening *evening, int64_t number)
{
    *evening->at++ = ' ';
    if (number < 0)
        *evening->at++ = '-';
    put_number(evening, number < 0 ? 0 - (uint64_t)number : (uint64_t)number);
}

static void put_reply(struct evening *evening, uint32_t position, enum second_letter letter,
    const struct second_reply *reply)
{
    put_number(evening, position);
    *evening->at++ = ' ';
    *evening->at++ = (uint8_t)second_letters[letter];
    put_field(evening, reply->refusal);
    put_field(evening, reply->place);
    if (letter == SECOND_ANSWER || letter == SECOND_CLOSE) {
        put_signed_field(evening, reply->change_up);
        put_signed_field(evening, reply->change_down);
    } else if (letter == SECOND_BEARER) {
        put_field(evening, reply->class_number);
        put_field(evening, reply->up);
        put_field(evening, reply->down);
    }
    *evening->at++ = '\n';
}

static void put_booked(struct evening *evening)
{
    put_bytes(evening, "booked");
    put_signed_field(evening, evening->up);
    put_signed_field(evening, evening->down);
    *evening->at++ = '\n';
}

/* The changes add up to what the rows hold. */
static void check_booked(const struct evening *evening, struct second_book book)
{
    struct second_rates booked = second_booked_in_all(book);

    assert(evening->up >= 0 && (uint64_t)evening->up == booked.up);
    assert(evening->down >= 0 && (uint64_t)evening->down == booked.down);
}

static size_t play(const struct second_calls *calls, uint8_t *out)
{
    struct second_row rows[SECOND_BOOK_ROWS] = { 0 };
    struct second_book book = { rows, SECOND_BOOK_ROWS };
    struct evening evening = { .at = out };

    put_bytes(&evening, "calls");
    put_field(&evening, calls->call_count);
    *evening.at++ = '\n';
    for (uint32_t i = 0; i < calls->call_count; i++) {
        struct second_ask ask = second_call_ask(calls, &calls->calls[i]);
        struct second_reply reply = second_play(book, &ask, NULL);
        put_reply(&evening, i + 1, ask.letter, &reply);
        evening.up += reply.change_up;
        evening.down += reply.change_down;
    }
    check_booked(&evening, book);
    put_booked(&evening);
    return (size_t)(evening.at - out);
}

static size_t fit(const uint8_t *output, size_t len, uint8_t *out, size_t room)
{
    if (len <= room)
        memcpy(out, output, len);
    return len;
}

/* Played aside, where only the output itself tells whether it fits. */
static size_t play_aside(const struct second_calls *calls, uint8_t *out, size_t room)
{
    uint8_t output[SECOND_EVENING_BYTES];

    return fit(output, play(calls, output), out, room);
}

size_t second_evening_play(const uint8_t *file, size_t len, uint8_t *out, size_t room)
{
    static const uint8_t bad_file[] = "bad file\n";
    struct second_calls calls;

    if (!second_read_calls(file, len, &calls))
        return fit(bad_file, sizeof bad_file - 1, out, room);
    if (room >= FIRST_LINE_BYTES + (size_t)calls.call_count * CALL_LINE_BYTES + LAST_LINE_BYTES)
        return play(&calls, out);
    return play_aside(&calls, out, room);
}
