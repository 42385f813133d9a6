#undef NDEBUG
#include "../generate/draw.h"
#include "../generate/row.h"
#include "../server/book.h"

#include <assert.h>
#include <stdio.h>
#include <stdlib.h>
#include <string.h>

static unsigned tests;

/* How many rows were in range, and how many were not. */
static unsigned long seen[2];

static bool is_class(unsigned class_number)
{
    return class_number == 0 || class_number == 2 || class_number == 4 || class_number == 6 || class_number == 8
        || class_number == 9;
}

static bool plain_way(const struct second_way *way, unsigned transport)
{
    return way->port <= (transport == 1 ? 65534 : 65535) && way->described <= 1 && way->rtcp <= 8589934590u;
}

static bool plain_component(const struct second_component *component)
{
    return component->kind >= 1 && component->kind <= 6 && component->transport >= 1 && component->transport <= 2
        && component->status <= 4 && is_class(component->class_number)
        && plain_way(&component->up, component->transport) && plain_way(&component->down, component->transport);
}

/* A value that may be absent: 1 and any 32 bits, or 0 and 0. */
static bool plain_given(unsigned given, uint32_t value)
{
    return given == 0 ? value == 0 : given == 1;
}

static bool plain_description(const struct second_description *said)
{
    return said->kind >= 1 && said->kind <= 6 && said->transport >= 1 && said->transport <= 2
        && said->direction >= 1 && said->direction <= 4 && said->port <= (said->transport == 1 ? 65534 : 65535)
        && plain_given(said->known, said->address) && plain_given(said->requestedgiven, said->requested)
        && plain_given(said->rsgiven, said->rs) && plain_given(said->rrgiven, said->rr);
}

static bool plain_zeros(const void *bytes, size_t count)
{
    const uint8_t *byte = bytes;

    while (count > 0 && *byte == 0)
        byte++, count--;
    return count == 0;
}

/* Field by field, as the paper names them. */
static bool plain_row(const struct second_row *row)
{
    if (row->completed > 1 || row->present > 1 || row->origin > 1 || !is_class(row->kept))
        return false;
    if (row->count > 8 || row->offered > 8)
        return false;
    if ((!row->completed && (row->kept || row->count)) || (!row->present && (row->origin || row->offered)))
        return false;
    for (unsigned i = 0; i < 8; i++) {
        const struct second_component *component = &row->components[i];
        const struct second_description *said = &row->offer[i];
        if (i < row->count ? !plain_component(component) : !plain_zeros(component, sizeof *component))
            return false;
        if (i < row->offered ? !plain_description(said) : !plain_zeros(said, sizeof *said))
            return false;
    }
    return true;
}

static void check_row(const struct second_row *row)
{
    bool expected = plain_row(row);
    struct second_look look = second_look(row, 1);

    assert(look.in_range == expected && second_in_range(row) == expected);
    seen[expected]++;
    if (!expected)
        return;
    struct second_rates booked = { 0, 0 };
    for (unsigned i = 0; i < row->count; i++) {
        booked.up += row->components[i].up.media + row->components[i].up.rtcp;
        booked.down += row->components[i].down.media + row->components[i].down.rtcp;
    }
    assert(look.booked.up == booked.up && look.booked.down == booked.down);
}

struct field {
    size_t at, size;
};

#define FIELD(type, name) { offsetof(struct type, name), sizeof(((struct type *)0)->name) }

static const struct field component_fields[] = {
    FIELD(second_component, kind), FIELD(second_component, transport), FIELD(second_component, status),
    FIELD(second_component, class_number), FIELD(second_component, up.rtcp), FIELD(second_component, up.address),
    FIELD(second_component, up.media), FIELD(second_component, up.port), FIELD(second_component, up.described),
    FIELD(second_component, down.rtcp), FIELD(second_component, down.address), FIELD(second_component, down.media),
    FIELD(second_component, down.port), FIELD(second_component, down.described),
};

static const struct field description_fields[] = {
    FIELD(second_description, address), FIELD(second_description, requested), FIELD(second_description, rs),
    FIELD(second_description, rr), FIELD(second_description, port), FIELD(second_description, kind),
    FIELD(second_description, transport), FIELD(second_description, direction), FIELD(second_description, known),
    FIELD(second_description, requestedgiven), FIELD(second_description, rsgiven), FIELD(second_description, rrgiven),
};

static const struct field row_fields[] = {
    FIELD(second_row, completed), FIELD(second_row, kept), FIELD(second_row, count), FIELD(second_row, present),
    FIELD(second_row, origin), FIELD(second_row, offered),
};

enum { COMPONENT_FIELDS = sizeof component_fields / sizeof component_fields[0] };
enum { DESCRIPTION_FIELDS = sizeof description_fields / sizeof description_fields[0] };
enum { ROW_FIELDS = sizeof row_fields / sizeof row_fields[0] };

static const uint64_t values[] = { 0, 1, 2, 3, 4, 5, 6, 7, 8, 9, 10, 11, 0x40, 0x7f, 0x80, 0xfe, 0xff, 0x100, 0x7ffa,
    0x7fff, 0x8000, 0x8001, 0xfffe, 0xffff, 0x10000, 0x10001, 0x7fffffff, 0x80000000u, 0xffff0000u,
    0xfffffffeu, 0xffffffffu, 0x100000000u, 8589934590u, 8589934591u, 8589934592u, (uint64_t)1 << 63, UINT64_MAX };

enum { VALUES = sizeof values / sizeof values[0] };

static void put_field(uint8_t *base, struct field field, uint64_t value)
{
    memcpy(base + field.at, &value, field.size);
}

/* Every two fields of a slot with every two values, the rest as it is: no fault hides another, and no good one is refused. */
static void check_pairs(struct second_row *row, void *slot, const struct field *fields, unsigned count)
{
    struct second_row good = *row;

    for (unsigned i = 0; i < count; i++) {
        for (unsigned j = i + 1; j < count; j++) {
            for (unsigned k = 0; k < VALUES * VALUES; k++) {
                put_field(slot, fields[i], values[k / VALUES]);
                put_field(slot, fields[j], values[k % VALUES]);
                check_row(row);
            }
            *row = good;
        }
    }
}

static struct second_row full_row(uint64_t seed)
{
    struct second_row row;

    do
        second_generate_row(&seed, &row);
    while (row.count != 8 || row.offered != 8);
    return row;
}

static void test_pairs(void)
{
    for (unsigned i = 0; i < 2; i++) {
        struct second_row row = full_row(i);
        check_pairs(&row, &row.components[7 * i], component_fields, COMPONENT_FIELDS);
        check_pairs(&row, &row.offer[7 * i], description_fields, DESCRIPTION_FIELDS);
        check_pairs(&row, &row, row_fields, ROW_FIELDS);
    }
    tests++;
}

/* Transport, port and described are tested together: every three of their values, up and down. */
static void test_ends(void)
{
    for (unsigned way = 0; way < 2; way++) {
        struct second_row row = full_row(way);
        uint8_t *slot = (uint8_t *)&row.components[5];
        for (unsigned k = 0; k < VALUES * VALUES * VALUES; k++) {
            put_field(slot, component_fields[1], values[k % VALUES]);
            put_field(slot, component_fields[7 + 5 * way], values[k / VALUES % VALUES]);
            put_field(slot, component_fields[8 + 5 * way], values[k / VALUES / VALUES]);
            check_row(&row);
        }
    }
    tests++;
}

/* The four fields of a component that are one word, over all that can matter to it. */
static void test_heads(void)
{
    static const uint16_t figures[] = { 0, 1, 2, 3, 4, 5, 6, 7, 9, 10, 0x7fff, 0x8000, 0xffff };
    struct second_row row = full_row(3);

    for (unsigned k = 0; k < 13 * 13 * 13 * 13; k++) {
        row.components[2].kind = figures[k % 13];
        row.components[2].transport = figures[k / 13 % 13];
        row.components[2].status = figures[k / 169 % 13];
        row.components[2].class_number = figures[k / 2197];
        row.offer[6].kind = figures[k % 13];
        row.offer[6].transport = figures[k / 13 % 13];
        row.offer[6].direction = k % 5 ? 1 : figures[k / 169 % 13];
        check_row(&row);
    }
    tests++;
}

/* Every 16-bit number in each of the fields that have 16 bits. */
static void test_sixteen_bits(void)
{
    struct second_row good = full_row(9), row = good;

    for (unsigned value = 0; value < 65536; value++) {
        for (unsigned i = 0; i < 4; i++) {
            put_field((uint8_t *)&row.components[i], component_fields[i], value);
            check_row(&row);
            row.components[i] = good.components[i];
            put_field((uint8_t *)&row.offer[i], description_fields[4 + i], value);
            check_row(&row);
            row.offer[i] = good.offer[i];
        }
        row.kept = (uint16_t)value;
        check_row(&row);
        row.kept = good.kept;
    }
    tests++;
}

/* Of an open offer's rates and address: any 32 bits where given, 0 where not, and no other flag than 0 and 1. */
static void test_given(void)
{
    struct second_row row = full_row(10);
    uint8_t *slot = (uint8_t *)&row.offer[3];
    uint64_t seed = 11;

    for (unsigned i = 0; i < 4; i++) {
        struct field value = description_fields[i], given = description_fields[8 + i];
        for (unsigned k = 0; k < 256 * VALUES; k++) {
            put_field(slot, given, k % 256);
            put_field(slot, value, k % 3 ? values[k / 256] : second_draw(&seed));
            check_row(&row);
        }
        put_field(slot, given, 1);
    }
    tests++;
}

/* Every bit of rows in range turned over, used parts and unused ones. */
static void test_bits(void)
{
    uint64_t seed = 5;

    for (unsigned i = 0; i < 60; i++) {
        struct second_row row;
        second_generate_row(&seed, &row);
        check_row(&row);
        assert(plain_row(&row));
        for (size_t bit = 0; bit < 8 * sizeof row; bit++) {
            uint8_t *byte = (uint8_t *)&row + bit / 8;
            *byte ^= (uint8_t)(1u << bit % 8);
            check_row(&row);
            *byte ^= (uint8_t)(1u << bit % 8);
        }
    }
    tests++;
}

/* Rows that are bytes of any kind, also with good counts, so that the look goes on to their slots. */
static void test_noise(void)
{
    uint64_t seed = 6;

    for (unsigned i = 0; i < 20000; i++) {
        struct second_row row;
        for (size_t at = 0; at < sizeof row; at += 8) {
            uint64_t draw = second_draw(&seed);
            memcpy((uint8_t *)&row + at, &draw, 8);
        }
        if (i % 4 > 0) {
            row.completed = row.present = 1;
            row.kept = row.origin = 0;
            row.count = below(&seed, 9);
            row.offered = below(&seed, 9);
        }
        check_row(&row);
    }
    tests++;
}

/* Rows of exactly their number, so that the sanitizer sees any byte read past them. */
static void check_book(const struct second_row *from, unsigned count)
{
    struct second_row *rows = malloc(count * sizeof *rows);
    bool expected = true;

    memcpy(rows, from, count * sizeof *rows);
    for (unsigned i = 0; i < count; i++)
        expected = expected && plain_row(&rows[i]);
    struct second_look look = second_look(rows, count);
    assert(look.in_range == expected && memcmp(rows, from, count * sizeof *rows) == 0);
    if (expected) {
        struct second_rates booked = second_booked_in_all((struct second_book) { rows, count });
        assert(look.booked.up == booked.up && look.booked.down == booked.down);
    }
    seen[expected]++;
    free(rows);
}

static void test_books(void)
{
    struct second_row rows[SECOND_BOOK_ROWS];
    uint64_t seed = 7;

    for (unsigned i = 0; i < 20000; i++) {
        unsigned count = 1 + below(&seed, SECOND_BOOK_ROWS);
        for (unsigned j = 0; j < count; j++)
            second_generate_row(&seed, &rows[j]);
        check_book(rows, count);
        second_damage_row(&seed, &rows[below(&seed, count)]);
        check_book(rows, count);
    }
    tests++;
}

int main(void)
{
    test_pairs();
    test_ends();
    test_heads();
    test_sixteen_bits();
    test_given();
    test_bits();
    test_noise();
    test_books();
    printf("in range: %lu, out of range: %lu\n", seen[1], seen[0]);
    assert(seen[0] >= 100000 && seen[1] >= 100000);
    printf("second: %u tests of the look passed\n", tests);
    return 0;
}
