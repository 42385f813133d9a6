#ifndef FLOW_COMPARE_H
#define FLOW_COMPARE_H

#include "sides.h"

#include <stdbool.h>

enum { REFUSAL_NUMBERS = 19 };

struct exchange {
    struct frumxadda_settings settings;
    uint64_t origin;
    const uint8_t *offer, *answer;
    size_t offer_len, answer_len;
};

/* What deriving takes. */
struct derivation {
    struct frumxadda_settings settings;
    uint64_t origin;
    struct befores before;
    struct texts offer, answer;
};

/* How often both gave each refusal number. */
extern unsigned long seen[REFUSAL_NUMBERS];

extern unsigned long exchanges_compared, derivations_compared;

/* Must be called first. */
void compare_start(void);

/*
 * Each compares what both sides answer, prints a difference with what led to it, and stops there.
 * An exchange moves the state on if it is not refused; returns its refusal number. The seed draws bearers.
 */
uint64_t compare_exchange(const struct exchange *exchange, struct sides *sides, uint64_t *seed);
void compare_state(const struct sides *sides, uint64_t *seed);

/* What deriving reads of a state, what it gives, and whether an answer fits an offer; returns the refusal number. */
void compare_before(const struct sides *sides, struct befores *before);
void compare_derived(const struct derivation *derivation, struct sides *after);
uint64_t compare_fit(const struct texts *offer, const struct texts *answer);

/* Of one component, from 0. */
void compare_gates(const struct sides *sides, unsigned slot);
void compare_destinations(const struct sides *sides, unsigned slot);

/* At the edges of what a bearer is authorised for, over sets that the seed draws. */
void compare_bearers(const struct sides *sides, uint64_t *seed);

#endif
