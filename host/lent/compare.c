#define _DEFAULT_SOURCE
#include "compare.h"

#include "../shared/call.h"
#include "../shared/rows.h"
#include "print.h"

#include <signal.h>
#include <stdio.h>
#include <stdlib.h>
#include <string.h>
#include <unistd.h>

/* The call that the two sides are asked, what it is lent, and the rows before it. */
static struct {
    struct second_ask ask;
    struct guarded text, out;
    size_t room;
    uint64_t count;
    struct frumxadda_row was[ROWS_ROOM];
} now;

/* The other side's buffer, and what both hold before the call. */
static uint8_t second_buffer[STATEMENT_ROOM], untouched[STATEMENT_ROOM];

unsigned long seen[REFUSAL_NUMBERS];
unsigned long calls_compared;
const uint8_t *const last_statement = second_buffer;

static void print_before(void)
{
    print_call(&now.ask, now.count);
    for (uint64_t i = 0; i < now.count; i++)
        print_row("before", i, &now.was[i]);
}

/* No return is possible, so the last words are printed here. */
static void past_the_end(int signal)
{
    (void)signal;
    printf("going past the end of what was lent, or writing what may only be read\n");
    print_before();
    fflush(stdout);
    _exit(1);
}

void compare_start(void)
{
    make_guard(&now.text);
    make_guard_for(&now.out, STATEMENT_ROOM);
    for (unsigned i = 0; i < STATEMENT_ROOM; i++)
        untouched[i] = (uint8_t)(0x80 + i % 127);
    signal(SIGSEGV, past_the_end);
}

static void stop(const char *what, const struct frumxadda_reply *proved, const struct frumxadda_reply *second)
{
    printf("%s\n", what);
    print_before();
    print_reply("frumxadda", proved);
    print_reply("second", second);
    exit(1);
}

/* Both rows in all bytes; the structs have no padding. Only an accepted call changes its row, and no other. */
static void check_rows(const struct books *books, const struct frumxadda_reply *proved,
    const struct frumxadda_reply *second)
{
    for (uint64_t i = 0; i < books->count; i++) {
        struct frumxadda_row other;
        row_from_second(&books->second[i], &other);
        if (memcmp(&books->proved[i], &other, sizeof other) != 0) {
            print_row_difference(i, &books->proved[i], &other);
            stop("difference in a row", proved, second);
        }
        if ((proved->refusal != 0 || i != now.ask.session) && memcmp(&other, &now.was[i], sizeof other) != 0)
            stop("a row changed that must not", proved, second);
    }
}

/* The bytes up to the length may be written, by an accepted statement alone. */
static void check_buffers(const struct frumxadda_reply *proved, const struct frumxadda_reply *second)
{
    size_t len = proved->refusal == 0 && now.ask.letter == SECOND_STATEMENT ? (size_t)proved->length : 0;

    if (len > now.room || memcmp(now.out.text, second_buffer, now.room) != 0)
        stop("difference in the buffer", proved, second);
    if (memcmp(now.out.text + len, untouched + len, now.room - len) != 0)
        stop("bytes changed that must not", proved, second);
}

static void set_call(const struct books *books, const struct second_ask *ask)
{
    guard_text(&now.text, ask->text, ask->len);
    now.ask = *ask;
    now.ask.text = ask->text ? now.text.text : NULL;
    now.room = ask->letter == SECOND_STATEMENT ? ask->room : 0;
    guard_text(&now.out, untouched, now.room);
    memcpy(second_buffer, untouched, sizeof second_buffer);
    now.count = books->count;
    if (books->count > 0)
        memcpy(now.was, books->proved, books->count * sizeof now.was[0]);
}

/* An empty buffer is by turns one that cannot be touched, and none. */
static struct frumxadda_reply play_proved(struct books *books)
{
    bool reads = now.ask.letter == SECOND_BEARER || now.ask.letter == SECOND_STATEMENT;
    uint8_t *out = now.room == 0 && calls_compared % 2 ? NULL : now.out.guard - now.room;

    guard_read_only(&now.text, true);
    if (reads)
        guard_read_only(&books->lent, true);
    struct frumxadda_reply reply = lent_call(books->proved, (size_t)books->count, &now.ask, out);
    if (reads)
        guard_read_only(&books->lent, false);
    guard_read_only(&now.text, false);
    return reply;
}

struct second_reply compare_call(struct books *books, const struct second_ask *ask)
{
    struct second_book book = { books->second, books->count };

    set_call(books, ask);
    struct frumxadda_reply proved = play_proved(books);
    struct second_reply reply = second_play(book, &now.ask, second_buffer);
    struct frumxadda_reply second = { reply.refusal, reply.place, { reply.change_up, reply.change_down },
        reply.class_number, { reply.up, reply.down }, reply.length };
    if (memcmp(&proved, &second, sizeof proved) != 0)
        stop("difference in the answer", &proved, &second);
    if (!guard_intact(&now.text) || !guard_intact(&now.out) || !guard_intact(&books->lent))
        stop("bytes changed in front of what was lent", &proved, &second);
    check_rows(books, &proved, &second);
    check_buffers(&proved, &second);
    seen[reply.refusal]++;
    calls_compared++;
    return reply;
}
