#include "../../second/generate/book.h"
#include "../../second/generate/random.h"
#include "compare.h"
#include "fields.h"
#include "print.h"
#include "runs.h"

#include <stdio.h>
#include <stdlib.h>
#include <string.h>

static unsigned below(uint64_t *seed, unsigned bound)
{
    return (unsigned)(second_draw(seed) % bound);
}

static void draw_field(uint64_t *seed, struct frumxadda_row *row, const struct field *field)
{
    struct values values = field_values(row, field);
    uint64_t value = values.good[below(seed, values.goods)], span = values.good[1] - values.good[0];

    if (values.wide && below(seed, 2))
        value = values.good[0] + second_draw(seed) % (span + 1);
    set_field(row, field, value);
}

/* The fields of components and descriptions; what may be absent comes after what says whether it is given. */
static void draw_fields(uint64_t *seed, struct frumxadda_row *row, bool if_given)
{
    for (unsigned i = 0; i < row_fields(); i++) {
        struct field field = row_field(i);
        bool slotted = field.part == COMPONENT || field.part == DESCRIPTION;
        if (slotted && (field.range == IF_GIVEN) == if_given && field_used(row, &field))
            draw_field(seed, row, &field);
    }
}

/* A row in range that is made field by field, so that its fields need not fit each other. */
static struct frumxadda_row draw_row(uint64_t *seed)
{
    static const uint16_t classes[] = { 0, 2, 4, 6, 8, 9 };
    struct frumxadda_row row;

    memset(&row, 0, sizeof row);
    row.held.completed = below(seed, 4) != 0;
    row.offer.present = (uint16_t)below(seed, 2);
    if (row.held.completed) {
        row.held.count = (uint32_t)below(seed, 9);
        row.held.kept = classes[below(seed, 6)];
    }
    if (row.offer.present) {
        row.offer.said.count = below(seed, 9);
        row.offer.origin = (uint16_t)below(seed, 2);
    }
    draw_fields(seed, &row, false);
    draw_fields(seed, &row, true);
    return row;
}

/* A call of a book with this row in its middle: whether it is refused with 19 is known. The field may be NULL. */
static void compare_edge(const struct frumxadda_row *row, uint64_t session, const struct field *field)
{
    static struct books books;
    struct second_ask ask = { .letter = SECOND_CANCEL, .session = session };

    fresh_books(&books, 3);
    set_row(&books, 1, row);
    if ((compare_call(&books, &ask).refusal == 19) == (field != NULL))
        return;
    print_row("row", 1, row);
    if (field)
        print_field(field);
    printf("%s range: both differ from the paper\n", field ? " is out of" : "all in");
    exit(1);
}

void run_edges(uint64_t *seed, unsigned long count)
{
    for (unsigned long i = 0; i < count; i++) {
        struct frumxadda_row row = draw_row(seed), bad = row;
        struct field field = row_field(below(seed, row_fields()));
        struct values values = field_values(&row, &field);
        compare_edge(&row, i % 3, NULL);
        if (values.bads == 0)
            continue;
        set_field(&bad, &field, values.bad[below(seed, values.bads)]);
        compare_edge(&bad, i % 3, &field);
    }
}

static struct frumxadda_row draw_bytes(uint64_t *seed)
{
    struct frumxadda_row row;

    for (size_t i = 0; i < sizeof row; i++)
        ((uint8_t *)&row)[i] = (uint8_t)second_draw(seed);
    return row;
}

/* The same call on a book with one byte of one row changed; the book goes on as it was. */
static void compare_spoiled(uint64_t *seed, const struct books *books, const struct second_ask *ask)
{
    static struct books spoiled;
    uint64_t number = below(seed, (unsigned)books->count);
    struct frumxadda_row row = books->proved[number];
    uint8_t *byte = (uint8_t *)&row + below(seed, sizeof row);

    *byte = (uint8_t)(below(seed, 2) ? *byte ^ 1u << below(seed, 8) : second_draw(seed));
    copy_books(&spoiled, books);
    set_row(&spoiled, number, &row);
    compare_call(&spoiled, ask);
}

void run_generated(uint64_t *seed, unsigned long count)
{
    static struct second_evening evening;
    static struct books books;
    unsigned left = 0;

    evening.seed = second_draw(seed);
    for (unsigned long i = 0; i < count; i++) {
        struct second_ask ask;
        if (left == 0) {
            second_start_evening(&evening);
            fresh_books(&books, evening.rows);
            left = 1 + below(seed, 400);
        }
        left--;
        second_generate_ask(&evening, books.second, &ask);
        if (below(seed, 10) == 0)
            compare_spoiled(seed, &books, &ask);
        compare_call(&books, &ask);
    }
}

/* Out of eight books one has a row of any bytes, and one is of such rows alone; returns whether this is one of the two. */
static bool draw_books(uint64_t *seed, struct books *books, unsigned rows)
{
    unsigned draw = below(seed, 8);

    fresh_books(books, rows);
    for (unsigned i = 0; i < rows; i++) {
        struct frumxadda_row row = draw == 0 ? draw_bytes(seed) : draw_row(seed);
        set_row(books, i, &row);
    }
    if (draw == 1) {
        struct frumxadda_row row = draw_bytes(seed);
        set_row(books, below(seed, rows), &row);
    }
    return draw < 2;
}

void run_wild(uint64_t *seed, unsigned long count)
{
    static struct second_evening evening;
    static struct books books;
    bool bytes = false;

    evening.seed = second_draw(seed);
    for (unsigned long i = 0; i < count; i++) {
        struct second_ask ask;
        if (i % 16 == 0) {
            second_start_evening(&evening);
            bytes = draw_books(seed, &books, evening.rows);
        }
        second_generate_ask(&evening, books.second, &ask);
        uint64_t refusal = compare_call(&books, &ask).refusal;
        if (bytes && refusal != 10 && refusal != 19) {
            printf("a row of random bytes is in range on both sides\n");
            exit(1);
        }
    }
}
