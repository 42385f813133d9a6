#ifndef LENT_RUNS_H
#define LENT_RUNS_H

#include <stdint.h>

/* The paper's cases, with what both must answer. */
void run_known(void);

/* Rows in range that no call leaves, and what an exchange makes of them; one past the count. */
void run_odd(void);

/* Each field of a row at both ends of its range and just outside, from every call, in the named row and in another. */
void run_ranges(void);

/* Rows in range, many fields at the ends of theirs, and the same rows with one field outside, whatever stands beside it. */
void run_edges(uint64_t *seed, unsigned long count);

/* Evenings of crossing sessions from a fresh book; at times a call on a book with one byte changed. */
void run_generated(uint64_t *seed, unsigned long count);

/* Books of rows that no call left: in range, or of any bytes, which every call has to refuse. */
void run_wild(uint64_t *seed, unsigned long count);

/* Eight threads that call on one book of 16 sessions, at random, under one lock. */
void run_threads(uint64_t *seed, unsigned long count);

#endif
