#include "look.h"

#include <string.h>

/*
 * Fields that stand together are read as one word and tested at once. No slot has a branch: what is wrong with any of
 * them is gathered in bits, which are tested once a row. So each row is read once, and the sums are taken with it.
 */
_Static_assert(__BYTE_ORDER__ == __ORDER_LITTLE_ENDIAN__, "the first field of a word is its lowest");

enum { SLOTS = 8 };

/* Four fields of 16 bits. */
#define FOUR(first, second, third, fourth) \
    ((uint64_t)(first) | (uint64_t)(second) << 16 | (uint64_t)(third) << 32 | (uint64_t)(fourth) << 48)

/*
 * Of a field from least to most: with least taken off, its top bit is set if it was below, and with REST added as well,
 * if it was above. Only a field that is out of range borrows or carries, so that one in range is never said to be out
 * of it but beside one that is.
 */
#define REST(most, least) (0x7fff - ((most) - (least)))

/* Kind 1 to 6, transport 1 or 2, status to 4, class to 9. */
#define HEAD_LEAST FOUR(1, 1, 0, 0)
#define HEAD_REST FOUR(REST(6, 1), REST(2, 1), REST(4, 0), REST(9, 0))
#define HEAD_BAD FOUR(0x8000, 0x8000, 0x8000, 0x8000)

/* Any port, kind, transport, direction 1 to 4. */
#define SAID_LEAST FOUR(0, 1, 1, 1)
#define SAID_REST FOUR(0, REST(6, 1), REST(2, 1), REST(4, 1))
#define SAID_BAD FOUR(0, 0x8000, 0x8000, 0x8000)

/* Port to 65,535, described 0 or 1, each of 32 bits. */
#define END_BAD 0xfffffffeffff0000u

#define GIVEN_BAD 0xfefefefeu

/* Bit c for each class c, 0 as well. */
#define CLASSES ((uint64_t)0x355)

static const uint8_t zeros[sizeof(struct second_row)];

static bool all_zeros(const void *from, const void *to)
{
    return memcmp(from, zeros, (size_t)((const uint8_t *)to - (const uint8_t *)from)) == 0;
}

static uint64_t word_at(const void *base, size_t offset)
{
    uint64_t word;

    memcpy(&word, (const uint8_t *)base + offset, sizeof word);
    return word;
}

#define WORD(base, type, field) word_at(base, offsetof(struct type, field))

/* What the used components of a row have, or-ed together, but the classes, which are and-ed; and the sums. */
struct components {
    uint64_t heads, ends, rates, classes;
    struct second_rates booked;
};

/*
 * Of RTP/AVP, where odd is 1, 1 more than the port is a port too; the sum alone would lose a port of all ones. An RTCP
 * rate has at most 33 bits, and so has 1 more.
 */
static void gather_way(struct components *all, const struct second_way *way, uint64_t odd)
{
    uint64_t end = WORD(way, second_way, port);

    all->ends |= end | (end + odd);
    all->rates |= way->rtcp | (way->rtcp + 1);
}

static void gather_component(struct components *all, const struct second_component *component)
{
    uint64_t head = WORD(component, second_component, kind), above = head - HEAD_LEAST, odd = head >> 16 & 1;

    all->heads |= above | (above + HEAD_REST);
    all->classes &= CLASSES >> (head >> 48 & 63);
    gather_way(all, &component->up, odd);
    gather_way(all, &component->down, odd);
    all->booked.up += component->up.media + component->up.rtcp;
    all->booked.down += component->down.media + component->down.rtcp;
}

static bool components_in_range(const struct second_row *row, struct second_rates *booked)
{
    const struct second_component *end = row->components + row->count;
    struct components all = { .classes = 1 };

    for (const struct second_component *component = row->components; component < end; component++)
        gather_component(&all, component);
    booked->up += all.booked.up;
    booked->down += all.booked.down;
    return ((all.heads & HEAD_BAD) | (all.ends & END_BAD) | all.rates >> 33 | (~all.classes & 1)) == 0;
}

/* What the descriptions of an open offer have, or-ed together. */
struct descriptions {
    uint64_t heads, ports;
    uint32_t given, values;
};

/* The value where it is not given, as 0 less 1 is all bits; one that is given, by 1, is masked away. */
static uint32_t absent(uint8_t given, uint32_t value)
{
    return value & (given - 1u);
}

static void gather_description(struct descriptions *all, const struct second_description *said)
{
    uint64_t head = WORD(said, second_description, port), above = head - SAID_LEAST;
    uint32_t given;

    memcpy(&given, (const uint8_t *)said + offsetof(struct second_description, known), sizeof given);
    all->heads |= above | (above + SAID_REST);
    all->ports |= said->port + (head >> 32 & 1);
    all->given |= given;
    all->values |= absent(said->known, said->address) | absent(said->requestedgiven, said->requested)
        | absent(said->rsgiven, said->rs) | absent(said->rrgiven, said->rr);
}

static bool descriptions_in_range(const struct second_row *row)
{
    const struct second_description *end = row->offer + row->offered;
    struct descriptions all = { 0 };

    for (const struct second_description *said = row->offer; said < end; said++)
        gather_description(&all, said);
    return ((all.heads & SAID_BAD) | all.ports >> 16 | (all.given & GIVEN_BAD) | all.values) == 0;
}

static bool held_in_range(const struct second_row *row)
{
    if (row->completed == 0)
        return row->kept == 0 && row->count == 0;
    return row->completed == 1 && row->kept <= 9 && (CLASSES >> row->kept & 1) != 0 && row->count <= SLOTS;
}

/* Where no offer is open, all that follows the used components is zeros, to the end of the row. */
static bool row_in_range(const struct second_row *row, struct second_rates *booked)
{
    if (!held_in_range(row) || !components_in_range(row, booked))
        return false;
    if (row->present == 0)
        return all_zeros(row->components + row->count, row + 1);
    return all_zeros(row->components + row->count, row->components + SLOTS)
        && row->present == 1 && row->origin <= 1 && row->offered <= SLOTS && descriptions_in_range(row)
        && all_zeros(row->offer + row->offered, row->offer + SLOTS);
}

struct second_look second_look(const struct second_row *rows, uint64_t count)
{
    struct second_look look = { .in_range = true };

    for (uint64_t i = 0; i < count && look.in_range; i++)
        look.in_range = row_in_range(&rows[i], &look.booked);
    return look;
}

bool second_in_range(const struct second_row *row)
{
    return second_look(row, 1).in_range;
}
