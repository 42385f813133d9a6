#include "fields.h"

#include "row_fields.h"

#include <string.h>

enum {
    PLAIN_FIELDS = sizeof plain / sizeof plain[0],
    COMPONENT_FIELDS = sizeof of_component / sizeof of_component[0],
    DESCRIPTION_FIELDS = sizeof of_description / sizeof of_description[0],
};

unsigned row_fields(void)
{
    return PLAIN_FIELDS + 8 * (COMPONENT_FIELDS + DESCRIPTION_FIELDS);
}

static struct field in_slot(struct field field, unsigned slot, size_t size)
{
    field.slot = slot;
    field.offset += slot * size;
    field.other += slot * size;
    return field;
}

struct field row_field(unsigned number)
{
    if (number < PLAIN_FIELDS)
        return plain[number];
    number -= PLAIN_FIELDS;
    if (number < 8 * COMPONENT_FIELDS)
        return in_slot(of_component[number % COMPONENT_FIELDS], number / COMPONENT_FIELDS,
            sizeof(struct frumxadda_component));
    number -= 8 * COMPONENT_FIELDS;
    return in_slot(of_description[number % DESCRIPTION_FIELDS], number / DESCRIPTION_FIELDS,
        sizeof(struct frumxadda_media));
}

/* Numbers stand with their lowest byte first. */
static uint64_t get_at(const struct frumxadda_row *row, size_t offset, unsigned bytes)
{
    uint64_t value = 0;

    memcpy(&value, (const uint8_t *)row + offset, bytes);
    return value;
}

uint64_t get_field(const struct frumxadda_row *row, const struct field *field)
{
    return get_at(row, field->offset, field->bytes);
}

void set_field(struct frumxadda_row *row, const struct field *field, uint64_t value)
{
    memcpy((uint8_t *)row + field->offset, &value, field->bytes);
}

bool field_used(const struct frumxadda_row *row, const struct field *field)
{
    switch (field->part) {
    case HELD:
        return row->held.completed == 1;
    case COMPONENT:
        return row->held.completed == 1 && field->slot < row->held.count;
    case OFFER:
        return row->offer.present == 1;
    default:
        return row->offer.present == 1 && field->slot < row->offer.said.count;
    }
}

static uint64_t top_of(const struct field *field)
{
    return UINT64_MAX >> (64 - 8 * field->bytes);
}

static void add_bad(struct values *values, uint64_t value, const struct field *field)
{
    if (value <= top_of(field))
        values->bad[values->bads++] = value;
}

static struct values from_to(uint64_t least, uint64_t greatest, const struct field *field)
{
    struct values values = { .goods = 2, .wide = true, .good = { least, greatest } };
    uint64_t top = top_of(field), half = 1 + (top >> 1);

    if (least > 0)
        add_bad(&values, least - 1, field);
    if (greatest < top)
        add_bad(&values, greatest + 1, field);
    if (greatest < half)
        add_bad(&values, half, field);
    if (greatest < top)
        add_bad(&values, top, field);
    return values;
}

static struct values class_values(const struct field *field)
{
    struct values values = { .goods = 6, .good = { 0, 2, 4, 6, 8, 9 } };
    static const uint64_t bads[] = { 1, 3, 5, 7, 10, 64, 66, 256, 258 };

    for (unsigned i = 0; i < sizeof bads / sizeof bads[0]; i++)
        add_bad(&values, bads[i], field);
    add_bad(&values, top_of(field), field);
    return values;
}

/* A count can change only with what it counts. */
static struct values count_values(uint64_t count, const struct field *field)
{
    struct values values = { .goods = 1, .good = { count } };

    if (count > 0)
        add_bad(&values, count - 1, field);
    add_bad(&values, count + 1, field);
    add_bad(&values, 9, field);
    add_bad(&values, 256 + count, field);
    add_bad(&values, 65536 + count, field);
    add_bad(&values, top_of(field), field);
    return values;
}

/* A flag can be 0 only if what it speaks for is all zeros. */
static struct values flag_values(bool zeros, const struct field *field)
{
    struct values values = from_to(zeros ? 0 : 1, 1, field);

    add_bad(&values, 257, field);
    return values;
}

static bool rest_zeros(const struct frumxadda_row *row, bool held)
{
    struct frumxadda_row rest = *row;
    static const struct frumxadda_row zeros;

    rest.held.completed = 0;
    rest.offer.present = 0;
    return held ? memcmp(&rest.held, &zeros.held, sizeof rest.held) == 0
                : memcmp(&rest.offer, &zeros.offer, sizeof rest.offer) == 0;
}

/* A transport can be RTP/AVP only if no port beside it is 65,535. */
static struct values transport_values(const struct frumxadda_row *row, const struct field *field)
{
    const struct frumxadda_component *component = &row->held.components[field->slot];
    bool top = field->part == COMPONENT ? component->up.port > 65534 || component->down.port > 65534
                                        : row->offer.said.media[field->slot].port > 65534;

    return from_to(top ? 2 : 1, 2, field);
}

/* 65,536 is tried too, where the field holds it: low bits alone would be in range. */
static struct values port_values(const struct frumxadda_row *row, const struct field *field)
{
    unsigned transport = field->part == COMPONENT ? row->held.components[field->slot].transport
                                                  : row->offer.said.media[field->slot].transport;
    struct values values = from_to(0, transport == 1 ? 65534 : 65535, field);

    add_bad(&values, 65536, field);
    return values;
}

struct values field_values(const struct frumxadda_row *row, const struct field *field)
{
    uint64_t other = get_at(row, field->other, field->other_bytes);

    if (field->range == PART)
        return flag_values(rest_zeros(row, field->part == HELD), field);
    if (!field_used(row, field))
        return from_to(0, 0, field);
    switch (field->range) {
    case CLASS:
        return class_values(field);
    case COUNT:
        return count_values(get_field(row, field), field);
    case TRANSPORT:
        return transport_values(row, field);
    case PORT:
        return port_values(row, field);
    case GIVEN:
        return flag_values(other == 0, field);
    case IF_GIVEN:
        return from_to(field->least, other == 1 ? field->greatest : 0, field);
    default:
        return from_to(field->least, field->greatest, field);
    }
}
