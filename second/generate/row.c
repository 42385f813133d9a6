#include "row.h"

#include "draw.h"

#include <string.h>

#define RTCP_TOP 8589934590u

static const uint16_t classes[] = { 0, 2, 4, 6, 8, 9 };

static uint32_t draw_32(uint64_t *seed)
{
    static const uint32_t figures[] = { 0, 0, 1, 64001, 0x7fffffff, 0x80000000u, 0xfffffffeu, 0xffffffffu };

    return one_in(seed, 2) ? (uint32_t)second_draw(seed) : PICK(seed, figures);
}

static uint64_t draw_rtcp(uint64_t *seed)
{
    static const uint64_t figures[] = { 0, 5000, 0xffffffffu, 0x100000000u, RTCP_TOP - 1, RTCP_TOP };

    return one_in(seed, 2) ? second_draw(seed) % (RTCP_TOP + 1) : PICK(seed, figures);
}

static uint16_t draw_port(uint64_t *seed, unsigned transport)
{
    static const uint16_t figures[] = { 0, 0, 1, 0x7fff, 0x8000, 65533, 65534 };

    if (one_in(seed, 2))
        return (uint16_t)below(seed, transport == 1 ? 65535 : 65536);
    return transport == 2 && one_in(seed, 3) ? 65535 : PICK(seed, figures);
}

static void draw_way(uint64_t *seed, unsigned transport, struct second_way *way)
{
    way->rtcp = draw_rtcp(seed);
    way->address = draw_32(seed);
    way->media = draw_32(seed);
    way->port = draw_port(seed, transport);
    way->described = below(seed, 2);
}

static void draw_component(uint64_t *seed, struct second_component *component)
{
    component->kind = (uint16_t)(1 + below(seed, 6));
    component->transport = (uint16_t)(1 + below(seed, 2));
    component->status = (uint16_t)below(seed, 5);
    component->class_number = PICK(seed, classes);
    draw_way(seed, component->transport, &component->up);
    draw_way(seed, component->transport, &component->down);
}

/* A value that may be absent. */
static uint32_t draw_given(uint64_t *seed, uint8_t *given)
{
    *given = (uint8_t)below(seed, 2);
    return *given == 0 ? 0 : draw_32(seed);
}

static void draw_description(uint64_t *seed, struct second_description *said)
{
    said->kind = (uint16_t)(1 + below(seed, 6));
    said->transport = (uint16_t)(1 + below(seed, 2));
    said->direction = (uint16_t)(1 + below(seed, 4));
    said->port = draw_port(seed, said->transport);
    said->address = draw_given(seed, &said->known);
    said->requested = draw_given(seed, &said->requestedgiven);
    said->rs = draw_given(seed, &said->rsgiven);
    said->rr = draw_given(seed, &said->rrgiven);
}

static unsigned draw_count(uint64_t *seed)
{
    return one_in(seed, 4) ? 8 : one_in(seed, 2) ? 1 + below(seed, 2) : below(seed, 9);
}

void second_generate_row(uint64_t *seed, struct second_row *row)
{
    memset(row, 0, sizeof *row);
    if (!one_in(seed, 4)) {
        row->completed = 1;
        row->kept = PICK(seed, classes);
        row->count = draw_count(seed);
    }
    if (one_in(seed, 2)) {
        row->present = 1;
        row->origin = (uint16_t)below(seed, 2);
        row->offered = draw_count(seed);
    }
    for (unsigned i = 0; i < row->count; i++)
        draw_component(seed, &row->components[i]);
    for (unsigned i = 0; i < row->offered; i++)
        draw_description(seed, &row->offer[i]);
}

/* A number at or next to one that bounds a field, or any. */
static uint64_t draw_bound(uint64_t *seed)
{
    static const uint64_t bounds[] = { 0, 1, 2, 4, 6, 8, 9, 0x7fff, 0x8000, 0xfffe, 0xffff, 0x7fffffff,
        0xffffffffu, RTCP_TOP, 0x1ffffffffu, (uint64_t)1 << 63, UINT64_MAX };

    if (one_in(seed, 8)) {
        uint64_t draw = second_draw(seed);
        return draw >> below(seed, 64);
    }
    uint64_t bound = PICK(seed, bounds);
    return bound + below(seed, 3) - 1;
}

/* Somewhere in the row, of one, two, four or eight bytes, as its fields are. */
static void change_field(uint64_t *seed, struct second_row *row)
{
    size_t size = (size_t)1 << below(seed, 4), at = below(seed, (unsigned)(sizeof *row / size)) * size;
    uint64_t value = draw_bound(seed);

    memcpy((uint8_t *)row + at, &value, size);
}

void second_damage_row(uint64_t *seed, struct second_row *row)
{
    for (unsigned times = 1 + below(seed, 3); times > 0; times--) {
        if (one_in(seed, 2))
            change_field(seed, row);
        else
            ((uint8_t *)row)[below(seed, sizeof *row)] ^= (uint8_t)(1u << below(seed, 8));
    }
}
