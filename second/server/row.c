#include "row.h"

#include <string.h>

struct second_rates second_sum(const struct second_component *components, uint64_t count)
{
    struct second_rates sum = { 0, 0 };

    for (uint64_t i = 0; i < count; i++) {
        sum.up += components[i].up.media + components[i].up.rtcp;
        sum.down += components[i].down.media + components[i].down.rtcp;
    }
    return sum;
}

struct second_rates second_booked(const struct second_row *row)
{
    return second_sum(row->components, row->count);
}

struct second_state second_held(const struct second_row *row)
{
    struct second_state state = { .count = row->count, .kept = row->kept };

    memcpy(state.components, row->components, sizeof state.components);
    return state;
}

struct second_sections second_offered(const struct second_row *row, struct second_media media[8])
{
    for (unsigned i = 0; i < row->offered; i++) {
        const struct second_description *said = &row->offer[i];
        media[i] = (struct second_media) {
            .kind = (uint8_t)said->kind, .transport = (uint8_t)said->transport,
            .direction = (uint8_t)said->direction, .port = said->port,
            .has_address = said->known, .address = said->address,
            .has_requested = said->requestedgiven, .requested = said->requested,
            .has_rs = said->rsgiven, .rs = said->rs,
            .has_rr = said->rrgiven, .rr = said->rr,
        };
    }
    return (struct second_sections) { row->offered, media };
}

void second_open(struct second_row *row, uint64_t origin, const struct second_text *text)
{
    row->present = 1;
    row->origin = (uint16_t)origin;
    row->offered = text->count;
    for (unsigned i = 0; i < text->count; i++) {
        const struct second_media *media = &text->media[i];
        row->offer[i] = (struct second_description) {
            .address = media->address, .requested = media->requested, .rs = media->rs, .rr = media->rr,
            .port = media->port, .kind = media->kind, .transport = media->transport, .direction = media->direction,
            .known = media->has_address, .requestedgiven = media->has_requested,
            .rsgiven = media->has_rs, .rrgiven = media->has_rr,
        };
    }
}

void second_drop(struct second_row *row)
{
    memset(row->offer, 0, row->offered * sizeof row->offer[0]);
    row->present = row->origin = 0;
    row->offered = 0;
}

/* The state is zeros past its count; what the row has more of is cleared by them. */
void second_complete(struct second_row *row, const struct second_state *state)
{
    size_t count = row->count > state->count ? row->count : (size_t)state->count;

    memcpy(row->components, state->components, count * sizeof row->components[0]);
    row->completed = 1;
    row->kept = (uint16_t)state->kept;
    row->count = (uint32_t)state->count;
    second_drop(row);
}

void second_clear(struct second_row *row)
{
    memset(row->components, 0, row->count * sizeof row->components[0]);
    row->completed = row->kept = 0;
    row->count = 0;
}
