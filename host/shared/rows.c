#include "rows.h"

static struct second_way way_to_second(const struct frumxadda_way *from)
{
    return (struct second_way) {
        .rtcp = from->rtcp, .address = from->address, .media = from->media, .port = from->port, .described = from->described,
    };
}

static struct frumxadda_way way_from_second(const struct second_way *from)
{
    return (struct frumxadda_way) {
        .rtcp = from->rtcp, .address = from->address, .media = from->media, .port = from->port, .described = from->described,
    };
}

struct second_component component_to_second(const struct frumxadda_component *from)
{
    return (struct second_component) {
        .kind = from->kind, .transport = from->transport, .status = from->status, .class_number = from->class_number,
        .up = way_to_second(&from->up), .down = way_to_second(&from->down),
    };
}

struct frumxadda_component component_from_second(const struct second_component *from)
{
    return (struct frumxadda_component) {
        .kind = from->kind, .transport = from->transport, .status = from->status, .class_number = from->class_number,
        .up = way_from_second(&from->up), .down = way_from_second(&from->down),
    };
}

static struct second_description description_to_second(const struct frumxadda_media *from)
{
    return (struct second_description) {
        .address = from->address, .requested = from->requested, .rs = from->rs, .rr = from->rr,
        .port = from->port, .kind = from->kind, .transport = from->transport, .direction = from->direction,
        .known = from->known, .requestedgiven = from->requestedgiven, .rsgiven = from->rsgiven, .rrgiven = from->rrgiven,
    };
}

static struct frumxadda_media description_from_second(const struct second_description *from)
{
    return (struct frumxadda_media) {
        .address = from->address, .requested = from->requested, .rs = from->rs, .rr = from->rr,
        .port = from->port, .kind = from->kind, .transport = from->transport, .direction = from->direction,
        .known = from->known, .requestedgiven = from->requestedgiven, .rsgiven = from->rsgiven, .rrgiven = from->rrgiven,
    };
}

void row_to_second(const struct frumxadda_row *from, struct second_row *row)
{
    row->completed = from->held.completed;
    row->kept = from->held.kept;
    row->count = from->held.count;
    row->present = from->offer.present;
    row->origin = from->offer.origin;
    row->offered = from->offer.said.count;
    for (unsigned i = 0; i < 8; i++) {
        row->components[i] = component_to_second(&from->held.components[i]);
        row->offer[i] = description_to_second(&from->offer.said.media[i]);
    }
}

void row_from_second(const struct second_row *from, struct frumxadda_row *row)
{
    row->held.completed = from->completed;
    row->held.kept = from->kept;
    row->held.count = from->count;
    row->offer.present = from->present;
    row->offer.origin = from->origin;
    row->offer.said.count = from->offered;
    for (unsigned i = 0; i < 8; i++) {
        row->held.components[i] = component_from_second(&from->components[i]);
        row->offer.said.media[i] = description_from_second(&from->offer[i]);
    }
}

struct second_media media_to_second(const struct frumxadda_media *from)
{
    return (struct second_media) {
        .kind = (uint8_t)from->kind, .transport = (uint8_t)from->transport, .direction = (uint8_t)from->direction,
        .port = from->port, .has_address = from->known, .address = from->address, .has_requested = from->requestedgiven,
        .requested = from->requested, .has_rs = from->rsgiven, .rs = from->rs, .has_rr = from->rrgiven, .rr = from->rr,
    };
}

struct frumxadda_media media_from_second(const struct second_media *from)
{
    return (struct frumxadda_media) {
        .address = from->address, .requested = from->requested, .rs = from->rs, .rr = from->rr, .port = from->port,
        .kind = from->kind, .transport = from->transport, .direction = from->direction, .known = from->has_address,
        .requestedgiven = from->has_requested, .rsgiven = from->has_rs, .rrgiven = from->has_rr,
    };
}
