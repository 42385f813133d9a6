#include "compare.h"
#include "fields.h"
#include "print.h"
#include "runs.h"

#include <inttypes.h>
#include <stdio.h>
#include <stdlib.h>
#include <string.h>

#define TEXT "v=0\nc=IN IP4 192.0.2.1\nm=audio 40000 RTP/AVP 0\n"

enum { BOOK = 3, NAMED = 1, OTHER = 2, BASES = 7 };

/* By turns RTP/AVP and udp, there one with the top port; described by turns, so that a direction with a port need not be. */
static struct frumxadda_component base_component(unsigned i)
{
    struct frumxadda_way up = { .rtcp = 3200, .address = 0x01010101, .media = 64000, .port = 40000 + i, .described = i % 2 };
    struct frumxadda_way down = { .rtcp = 3200, .address = 0x02020202, .media = 32000, .port = i == 1 ? 65535 : 50000 + i,
        .described = i % 3 == 0 };

    return (struct frumxadda_component) { .kind = (uint16_t)(1 + i % 6), .transport = (uint16_t)(1 + i % 2),
        .status = (uint16_t)(i % 5), .class_number = 2, .up = up, .down = down };
}

/* What may be absent is given by turns. */
static struct frumxadda_media base_description(unsigned i)
{
    struct frumxadda_media media = { .kind = (uint16_t)(1 + i % 6), .transport = (uint16_t)(1 + i % 2),
        .direction = (uint16_t)(1 + i % 4), .port = (uint16_t)(i == 1 ? 65535 : 40000 + i), .known = i % 2 == 0,
        .requestedgiven = i % 3 != 1, .rsgiven = i % 4 != 3, .rrgiven = i % 4 != 2 };

    media.address = media.known ? 0xc0000201 : 0;
    media.requested = media.requestedgiven ? 64001 : 0;
    media.rs = media.rsgiven ? 800 : 0;
    media.rr = media.rrgiven ? 2400 : 0;
    return media;
}

/* Below 0: nothing completed, or no open offer. */
static struct frumxadda_row base_row(int components, int descriptions)
{
    struct frumxadda_row row;

    memset(&row, 0, sizeof row);
    row.held.completed = components >= 0;
    row.offer.present = descriptions >= 0;
    row.held.count = components > 0 ? (uint32_t)components : 0;
    row.offer.said.count = descriptions > 0 ? (uint32_t)descriptions : 0;
    row.held.kept = components > 0 ? 4 : 0;
    row.offer.origin = descriptions > 0;
    for (unsigned i = 0; i < row.held.count; i++)
        row.held.components[i] = base_component(i);
    for (unsigned i = 0; i < row.offer.said.count; i++)
        row.offer.said.media[i] = base_description(i);
    return row;
}

static void fail(const struct second_ask *ask, const struct field *field, uint64_t value, bool good)
{
    print_call(ask, BOOK);
    print_field(field);
    printf(" at %" PRIu64 ": both differ from the paper, in which it is %s range\n", value, good ? "in" : "out of");
    exit(1);
}

/* Every call, of the row that holds the value and of another. */
static void try_value(const struct frumxadda_row *base, const struct field *field, uint64_t value, bool good)
{
    static const struct second_pool pool = { 4294967295u, 4294967295u };
    static struct books books;
    struct frumxadda_row row = *base;

    set_field(&row, field, value);
    for (unsigned i = 0; i < 2 * SECOND_LETTERS; i++) {
        struct second_ask ask = { .letter = i / 2, .session = i % 2 ? NAMED : OTHER, .pool = pool,
            .asked = { 1, 2, 0, 0 }, .text = (const uint8_t *)TEXT, .len = strlen(TEXT), .room = STATEMENT_ROOM };
        fresh_books(&books, BOOK);
        set_row(&books, NAMED, &row);
        uint64_t refusal = compare_call(&books, &ask).refusal;
        if ((refusal != 19) != good)
            fail(&ask, field, value, good);
    }
}

static void try_field(const struct frumxadda_row *base, const struct field *field)
{
    struct values values = field_values(base, field);

    for (unsigned i = 0; i < values.goods; i++)
        try_value(base, field, values.good[i], true);
    for (unsigned i = 0; i < values.bads; i++)
        try_value(base, field, values.bad[i], false);
}

void run_ranges(void)
{
    static const int bases[BASES][2] = { { 8, 8 }, { 3, 5 }, { 2, -1 }, { -1, 2 }, { 0, 0 }, { -1, -1 }, { 8, -1 } };

    for (unsigned i = 0; i < BASES; i++) {
        struct frumxadda_row base = base_row(bases[i][0], bases[i][1]);
        for (unsigned j = 0; j < row_fields(); j++) {
            struct field field = row_field(j);
            try_field(&base, &field);
        }
    }
}
