#ifndef SECOND_GENERATE_FLOW_H
#define SECOND_GENERATE_FLOW_H

#include "text.h"

#include <stdbool.h>

/* What goes on from exchange to exchange; only the seed need be set at first. */
struct second_call {
    uint64_t seed;
    bool modest; /* rates of some kilobits, so that many sessions fit a pool */
    unsigned count;
    unsigned kinds[8], transports[8];
};

struct second_exchange {
    bool fresh; /* whether it starts from the fresh state, not from the one before */
    unsigned origin;
    size_t offer_len, answer_len;
    uint8_t offer[SECOND_GENERATED_BYTES], answer[SECOND_GENERATED_BYTES];
};

/* Makes the next exchange of a call: mostly an answer that fits, some that do not, some damaged texts. */
void second_generate_exchange(struct second_call *call, struct second_exchange *exchange);

#endif
