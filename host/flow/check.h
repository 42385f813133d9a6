#ifndef FLOW_CHECK_H
#define FLOW_CHECK_H

#include "../shared/guard.h"
#include "compare.h"

/* The exchange that the two sides are asked about, if any. */
struct now {
    bool given;
    struct guarded offer, answer;
    struct frumxadda_settings settings;
    uint64_t origin;
    const struct sides *was;
};

extern struct now now;

/* Prints that exchange. */
void print_input(void);

/* Stops where the figures differ. Of is the state asked about, other than the one before; either it or the input may be NULL. */
void check(const char *what, const struct sides *of, const struct figures *input, const struct figures *proved,
    const struct figures *second);

#endif
