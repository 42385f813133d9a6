#include "print.h"

#include "../shared/print_text.h"

#include <inttypes.h>
#include <stdio.h>

static const char *const letters[] = { "offer", "answer", "cancel", "close", "bearer", "statement" };

void print_call(const struct second_ask *ask, uint64_t rows)
{
    const struct second_settings *settings = &ask->settings;
    const struct second_asked *asked = &ask->asked;

    printf("%s of session %" PRIu64 ", %" PRIu64 " rows lent", letters[ask->letter], ask->session, rows);
    if (ask->letter == SECOND_OFFER)
        printf(", origin %" PRIu64, ask->origin);
    if (ask->letter == SECOND_ANSWER)
        printf(", media default %" PRIu32 " %" PRIu32 ", RTCP default %" PRIu32 " %" PRIu32 ", pool %" PRIu32 " %" PRIu32,
            settings->media_up, settings->media_down, settings->rtcp_up, settings->rtcp_down, ask->pool.up,
            ask->pool.down);
    if (ask->letter == SECOND_BEARER)
        printf(", set %" PRIx64 " (hex) class %" PRIu64 " up %" PRIu64 " down %" PRIu64, asked->set,
            asked->class_number, asked->up, asked->down);
    if (ask->letter == SECOND_STATEMENT)
        printf(", room %zu", ask->room);
    printf("\n");
    if (ask->letter == SECOND_OFFER || ask->letter == SECOND_ANSWER)
        print_text("text", ask->text, ask->len);
}

void print_reply(const char *name, const struct frumxadda_reply *reply)
{
    printf("%s: refusal %" PRIu64 " place %" PRIu64 " change %" PRId64 " %" PRId64 " class %" PRIu64 " up %" PRIu64
           " down %" PRIu64 " length %" PRIu64 "\n",
        name, reply->refusal, reply->place, reply->change.up, reply->change.down, reply->class_number,
        reply->granted.up, reply->granted.down, reply->length);
}

void print_field(const struct field *field)
{
    static const char *const parts[] = { "held", "component", "offer", "description" };

    printf("  %s", parts[field->part]);
    if (field->part == COMPONENT || field->part == DESCRIPTION)
        printf(" %u", field->slot + 1);
    printf(" %s", field->name);
}

void print_row(const char *name, uint64_t number, const struct frumxadda_row *row)
{
    printf("%s, row %" PRIu64 ":\n", name, number);
    for (unsigned i = 0; i < row_fields(); i++) {
        struct field field = row_field(i);
        if (get_field(row, &field) == 0)
            continue;
        print_field(&field);
        printf(" %" PRIu64 "\n", get_field(row, &field));
    }
}

void print_row_difference(uint64_t number, const struct frumxadda_row *proved, const struct frumxadda_row *second)
{
    printf("row %" PRIu64 " after the call:\n", number);
    for (unsigned i = 0; i < row_fields(); i++) {
        struct field field = row_field(i);
        uint64_t one = get_field(proved, &field), other = get_field(second, &field);
        if (one == other)
            continue;
        print_field(&field);
        printf(": frumxadda %" PRIu64 ", second %" PRIu64 "\n", one, other);
    }
}
