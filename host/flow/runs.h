#ifndef FLOW_RUNS_H
#define FLOW_RUNS_H

#include <stdint.h>

/* Every mix of ports that fit, directions, origins, rates given, transports, and what came before. */
void run_product(uint64_t *seed);

/* Each cause of 15 at each place, with all pairs of directions in turn. */
void run_misfits(uint64_t *seed);

/* What no text gives, handed over by value: cases with what both must answer, then what the seed draws. */
void run_values(uint64_t *seed, unsigned long count);

/* Calls of some exchanges each; at times the state is one that no exchange left. */
void run_generated(uint64_t *seed, unsigned long count);

/* What deriving reads of components with any figures, and their gates, destinations and bearers. */
void run_wild(uint64_t *seed, unsigned long count);

#endif
