#ifndef BENCH_MEASURE_H
#define BENCH_MEASURE_H

#include <stdint.h>

/* Does the same thing so many times, and returns something of what came out, so that no compiler leaves it out. */
typedef uint64_t work(void *sample, unsigned long times);

/* Nanoseconds for one time. */
struct measured {
    double proved, second;
};

/*
 * The least of many rounds, of each program by itself, after a round that is not timed and warms the cache. In every round
 * one comes right after the other, by turns the library first and the second program first, so that a clock that drifts,
 * or a core that slows down, hits both alike.
 */
struct measured measure(work *proved, work *second, void *sample, unsigned long times);

/* What putting something back takes, which is measured the same way, taken off. */
struct measured without(struct measured all, struct measured part);

/* The table: a name, the library's nanoseconds, the second program's, and their ratio. */
void print_head(void);
void print_measured(const char *name, struct measured measured);

#endif
