#include "compare.h"
#include "print.h"
#include "runs.h"

#include <stdio.h>
#include <stdlib.h>
#include <string.h>

#define OFFER "v=0\nc=IN IP4 192.0.2.1\nm=audio 40000 RTP/AVP 0\nb=AS:64\na=sendonly\n"
#define ANSWER "v=0\nc=IN IP4 192.0.2.9\nm=audio 50000 RTP/AVP 0\na=recvonly\n"
#define BOTH "components 1\n1 audio 0 2 100000 64000 5000 3200\n"
#define ONE_WAY "components 1\n1 audio 0 4 100000 0 5000 3200\n"

enum { BOOK = 2, SESSION = 1 };

/* What the session held, and its statement after an exchange in which the handset alone sends; NULL where all calls get 19. */
static const struct odd {
    const char *name;
    uint32_t count;
    uint16_t status, class_number;
    uint32_t up, down, port;
    const char *statement;
} odds[] = {
    { "one that had both", 1, 2, 2, 1, 1, 40000, BOTH },
    { "one that had both at port 0", 1, 2, 2, 1, 1, 0, BOTH },
    { "one with ports, and none described", 1, 2, 2, 0, 0, 40000, ONE_WAY },
    { "a removed one, described both ways", 1, 4, 0, 1, 1, 40000, ONE_WAY },
    { "a removed one, described both ways at port 0", 1, 4, 0, 1, 1, 0, ONE_WAY },
    { "one past the count", 0, 2, 2, 1, 1, 40000, NULL },
    { "one past the count, described at port 0", 0, 0, 0, 1, 0, 0, NULL },
};

static struct frumxadda_row odd_row(const struct odd *odd)
{
    struct frumxadda_row row = { .held = { .completed = 1, .kept = 2, .count = odd->count } };

    row.held.components[0] = (struct frumxadda_component) { .kind = 1, .transport = 1, .status = odd->status,
        .class_number = odd->class_number, .up = { .address = 1, .port = odd->port, .described = odd->up },
        .down = { .address = 2, .port = odd->port, .described = odd->down } };
    return row;
}

static struct second_ask odd_ask(enum second_letter letter)
{
    const char *text = letter == SECOND_OFFER ? OFFER : ANSWER;

    return (struct second_ask) { .letter = letter, .session = SESSION, .settings = { 100000, 100000, 5000, 5000 },
        .pool = { 1000000, 1000000 }, .asked = { 1, 9, 0, 0 }, .text = (const uint8_t *)text, .len = strlen(text),
        .room = STATEMENT_ROOM };
}

static void must(bool good, const struct odd *odd)
{
    if (good)
        return;
    printf("%s: both differ from the paper\n", odd->name);
    exit(1);
}

static void compare_odd(struct books *books, const struct odd *odd)
{
    static const enum second_letter letters[] = { SECOND_BEARER, SECOND_STATEMENT, SECOND_OFFER, SECOND_ANSWER, SECOND_STATEMENT };
    struct second_reply reply = { 0 };

    for (unsigned i = 0; i < sizeof letters / sizeof letters[0]; i++) {
        struct second_ask ask = odd_ask(letters[i]);
        reply = compare_call(books, &ask);
        must(odd->statement ? reply.refusal == 0 || (i == 0 && reply.refusal == 17) : reply.refusal == 19, odd);
    }
    if (odd->statement)
        must(reply.length == strlen(odd->statement) && memcmp(last_statement, odd->statement, reply.length) == 0, odd);
}

void run_odd(void)
{
    static struct books books;

    for (size_t i = 0; i < sizeof odds / sizeof odds[0]; i++) {
        struct frumxadda_row row = odd_row(&odds[i]);
        fresh_books(&books, BOOK);
        set_row(&books, SESSION, &row);
        compare_odd(&books, &odds[i]);
    }
}
