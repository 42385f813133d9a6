/* Written by tools/row/write.py, for check.c: the fields of each struct that the library gives, down to plain numbers. */
#include "check.h"

#include <frumxadda.h>

#define PLACE(type, member) offsetof(struct frumxadda_##type, member), sizeof(((struct frumxadda_##type *)0)->member)
#define AT(type, member) { #member, PLACE(type, member), NULL }
#define AS(type, member, other) { #member, PLACE(type, member), #other }

struct layout layout_media = { .name = "media", .count = 12, .fields = {
    AT(media, address),
    AT(media, requested),
    AT(media, rs),
    AT(media, rr),
    AT(media, port),
    AT(media, kind),
    AT(media, transport),
    AT(media, direction),
    AT(media, known),
    AT(media, requestedgiven),
    AT(media, rsgiven),
    AT(media, rrgiven),
} };

struct layout layout_spot = { .name = "spot", .count = 4, .fields = {
    AT(spot, start),
    AT(spot, end),
    AT(spot, from),
    AT(spot, to),
} };

struct layout layout_reading = { .name = "reading", .count = 3, .fields = {
    AT(reading, refusal),
    AT(reading, place),
    AT(reading, count),
} };

struct layout layout_component = { .name = "component", .count = 14, .fields = {
    AT(component, kind),
    AT(component, transport),
    AT(component, status),
    AT(component, class_number),
    AT(component, up.rtcp),
    AT(component, up.address),
    AT(component, up.media),
    AT(component, up.port),
    AT(component, up.described),
    AT(component, down.rtcp),
    AT(component, down.address),
    AT(component, down.media),
    AT(component, down.port),
    AT(component, down.described),
} };

struct layout layout_held = { .name = "held", .count = 3, .fields = {
    AT(held, completed),
    AT(held, kept),
    AT(held, count),
} };

struct layout layout_was = { .name = "was", .count = 4, .fields = {
    AT(was, kind),
    AT(was, live),
    AT(was, up),
    AT(was, down),
} };

struct layout layout_before = { .name = "before", .count = 1, .fields = {
    AT(before, kept),
} };

struct layout layout_descriptions = { .name = "descriptions", .count = 1, .fields = {
    AT(descriptions, count),
} };

struct layout layout_destinations = { .name = "destinations", .count = 4, .fields = {
    AT(destinations, up.address),
    AT(destinations, up.port),
    AT(destinations, down.address),
    AT(destinations, down.port),
} };

struct layout layout_misfit = { .name = "misfit", .count = 2, .fields = {
    AT(misfit, refusal),
    AT(misfit, place),
} };

struct layout layout_open_gates = { .name = "open_gates", .count = 4, .fields = {
    AT(open_gates, media_up),
    AT(open_gates, media_down),
    AT(open_gates, rtcp_up),
    AS(open_gates, rtcp_down, rtcp_up),
} };

struct layout layout_authorised = { .name = "authorised", .count = 4, .fields = {
    AT(authorised, refusal),
    AT(authorised, class_number),
    AT(authorised, up),
    AT(authorised, down),
} };

struct layout layout_decision = { .name = "decision", .count = 6, .fields = {
    AT(decision, refusal),
    AT(decision, place),
    AT(decision, failed),
    AT(decision, text),
    AT(decision, start),
    AT(decision, end),
} };

struct layout layout_open_offer = { .name = "open_offer", .count = 3, .fields = {
    AT(open_offer, present),
    AT(open_offer, origin),
    AT(open_offer, said.count),
} };

struct layout layout_reply = { .name = "reply", .count = 8, .fields = {
    AT(reply, refusal),
    AT(reply, place),
    AT(reply, change.up),
    AT(reply, change.down),
    AT(reply, class_number),
    AT(reply, granted.up),
    AT(reply, granted.down),
    AT(reply, length),
} };

static const struct layout *const layouts[] = {
    &layout_media,
    &layout_spot,
    &layout_reading,
    &layout_component,
    &layout_held,
    &layout_was,
    &layout_before,
    &layout_descriptions,
    &layout_destinations,
    &layout_misfit,
    &layout_open_gates,
    &layout_authorised,
    &layout_decision,
    &layout_open_offer,
    &layout_reply,
};
