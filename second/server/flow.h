#ifndef SECOND_SERVER_FLOW_H
#define SECOND_SERVER_FLOW_H

#include "text.h"

struct second_settings {
    uint32_t media_up, media_down, rtcp_up, rtcp_down; /* the defaults */
};

/*
 * One direction of a component. Address and port are those of the text that its packets go to, described or not, and
 * zeros where the component is removed; described is 1 where the media flow is described in this direction, else 0.
 */
struct second_way {
    uint64_t rtcp; /* the authorised rates, bit/s */
    uint32_t address, media, port, described;
};

/* Kind and transport as in a media section; status 0 to 4; class 0, 2, 4, 6, 8 or 9. Up is what the handset sends. */
struct second_component {
    uint16_t kind, transport, status, class_number;
    struct second_way up, down;
};

/* What an exchange leaves; the fresh state is all zeros. A count above 8 counts as 8. */
struct second_state {
    uint64_t count, kept;
    struct second_component components[8];
};

/* Of a component before an exchange: its kind, whether it is live, and whether it is and has that direction described. */
struct second_was {
    uint16_t kind, live, up, down;
};

/* All that an exchange takes from what was there; zeros past the count. */
struct second_before {
    uint16_t kept;
    struct second_was components[8];
};

/* Without padding, so that zero bytes are zero fields and fields that stand together are one word. */
_Static_assert(sizeof(struct second_way) == 24 && sizeof(struct second_component) == 56, "no padding");
_Static_assert(sizeof(struct second_was) == 8 && sizeof(struct second_before) == 66, "no padding");

/* Zeros where there is none. */
struct second_destination {
    uint64_t address, port;
};

struct second_destinations {
    struct second_destination up, down;
};

/* The media sections of a text; 8 of them stand at media, a count above 8 counts as 8. */
struct second_sections {
    uint64_t count;
    const struct second_media *media;
};

/* 15 and its place, or 0 and 0. */
struct second_fit {
    uint64_t refusal, place;
};

/* 1 open, 0 closed. */
struct second_gates {
    uint8_t media_up, media_down, rtcp_up, rtcp_down;
};

/* Component 1 is bit value 1 of the set. */
struct second_asked {
    uint64_t set, class_number, up, down;
};

/* 0, 17 or 18; what is authorised over the set, zeros on 18. */
struct second_authorised {
    uint64_t refusal, class_number, up, down;
};

/* Refused: text is 2, start and end are 0. Else the line from start to before end in text 1, the offer, or 2, the answer. */
struct second_decision {
    uint64_t refusal, place;
    uint64_t failed; /* 1 offer, 2 answer, else 0 */
    uint64_t text, start, end;
};

struct second_sections second_sections(const struct second_text *text);

struct second_fit second_fit(struct second_sections offer, struct second_sections answer);

struct second_before second_before(const struct second_state *state);

/* The same of components that stand anywhere, into before. */
void second_before_of(uint64_t kept, const struct second_component *components, uint64_t count,
    struct second_before *before);

/* Of an offer and an answer that fit it; origin 0: the handset offered, any other: the network. */
struct second_state second_derive(const struct second_settings *settings, uint64_t origin,
    const struct second_before *before, struct second_sections offer, struct second_sections answer);

/* The same without a copy, into now. */
void second_derive_into(const struct second_settings *settings, uint64_t origin, const struct second_before *before,
    struct second_sections offer, struct second_sections answer, struct second_state *now);

/* Where the packets of the media flow go, and those of the RTCP flow. */
struct second_destinations second_media_destinations(const struct second_component *component);
struct second_destinations second_rtcp_destinations(const struct second_component *component);

struct second_gates second_gates(const struct second_component *component);

struct second_authorised second_authorise(const struct second_state *state, const struct second_asked *asked);

/* The same over components that stand anywhere. */
struct second_authorised second_authorise_over(const struct second_component *components, uint64_t count,
    const struct second_asked *asked);

/* Component: from 1. */
struct second_decision second_deciding_line(const uint8_t *offer, size_t offer_len, const uint8_t *answer,
    size_t answer_len, uint64_t component);

#endif
