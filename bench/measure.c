#define _POSIX_C_SOURCE 200809L
#include "measure.h"

#include <stdio.h>
#include <time.h>

enum { ROUNDS = 151 };

static volatile uint64_t sink;

static double now(void)
{
    struct timespec time;

    clock_gettime(CLOCK_MONOTONIC, &time);
    return 1e9 * (double)time.tv_sec + (double)time.tv_nsec;
}

static void time_once(work *work, void *sample, unsigned long times, double *least)
{
    double start = now();

    sink += work(sample, times);
    double each = (now() - start) / (double)times;
    if (*least == 0 || each < *least)
        *least = each;
}

struct measured measure(work *proved, work *second, void *sample, unsigned long times)
{
    struct measured least = { 0, 0 };

    sink += proved(sample, times) + second(sample, times);
    for (unsigned i = 0; i < ROUNDS; i++) {
        if (i % 2 == 0)
            time_once(proved, sample, times, &least.proved);
        time_once(second, sample, times, &least.second);
        if (i % 2 == 1)
            time_once(proved, sample, times, &least.proved);
    }
    return least;
}

struct measured without(struct measured all, struct measured part)
{
    return (struct measured) { all.proved - part.proved, all.second - part.second };
}

void print_head(void)
{
    printf("%-36s %12s %11s %7s\n", "what", "Frumxadda ns", "second ns", "ratio");
}

void print_measured(const char *name, struct measured measured)
{
    printf("%-36s %12.1f %11.1f %7.2f\n", name, measured.proved, measured.second, measured.proved / measured.second);
}
