#ifndef FLOW_PRINT_H
#define FLOW_PRINT_H

#include <stdint.h>

/* A state has completed, kept class and count, then 14 figures for each of 8 components; what was before it the kept class, then 4. */
enum { COMPONENT_FIGURES = 14, STATE_FIGURES = 3 + 8 * COMPONENT_FIGURES };
enum { WAS_FIGURES = 4, BEFORE_FIGURES = 1 + 8 * WAS_FIGURES };

/* An answer or an input, field by field. */
struct figures {
    const char *labels;
    unsigned count;
    uint64_t values[STATE_FIGURES];
};

void print_figures(const char *name, const struct figures *figures);

#endif
