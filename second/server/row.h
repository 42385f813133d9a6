#ifndef SECOND_SERVER_ROW_H
#define SECOND_SERVER_ROW_H

#include "flow.h"

#include <stdbool.h>

/* One media section of an open offer, numbers as there; all zeros where unused. */
struct second_description {
    uint32_t address, requested, rs, rr; /* rates in bit/s; 0 where not given */
    uint16_t port, kind, transport, direction;
    uint8_t known, requestedgiven, rsgiven, rrgiven; /* whether there is an address, and each rate */
};

/* A session: what it holds, then its open offer. A fresh one is all zeros. */
struct second_row {
    uint16_t completed, kept;
    uint32_t count;
    struct second_component components[8];
    uint16_t present, origin;
    uint32_t offered;
    struct second_description offer[8];
};

_Static_assert(sizeof(struct second_description) == 28 && sizeof(struct second_row) == 688, "no padding");

struct second_rates {
    uint64_t up, down;
};

/* The sums of the media and RTCP rates of that many components, at most 8. */
struct second_rates second_sum(const struct second_component *components, uint64_t count);

/* That of a row; it and those below take a row in range, and leave one. */
struct second_rates second_booked(const struct second_row *row);

struct second_state second_held(const struct second_row *row);

/* The open offer as the reader of texts gives it, without places in the text; media past the count are not written. */
struct second_sections second_offered(const struct second_row *row, struct second_media media[8]);

/* A row without an open offer after an offer, one with it after a completed exchange. */
void second_open(struct second_row *row, uint64_t origin, const struct second_text *text);
void second_complete(struct second_row *row, const struct second_state *state);

/* Drops the open offer. */
void second_drop(struct second_row *row);

/* Makes a row without an open offer fresh. */
void second_clear(struct second_row *row);

#endif
