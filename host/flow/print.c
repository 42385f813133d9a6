#include "print.h"

#include <inttypes.h>
#include <stdio.h>

/* Figures of eight components, each on a line; a comma stands before those at every such step from the start. */
static void print_components(const uint64_t *values, unsigned each, unsigned start, unsigned step)
{
    for (unsigned i = 0; i < 8; i++) {
        printf("  %u:", i + 1);
        for (unsigned j = 0; j < each; j++)
            printf("%s %" PRIu64, j >= start && (j - start) % step == 0 ? "," : "", values[each * i + j]);
        printf("\n");
    }
}

static void print_state(const struct figures *figures)
{
    printf(" completed %" PRIu64 " kept %" PRIu64 " count %" PRIu64 "\n", figures->values[0], figures->values[1],
        figures->values[2]);
    printf("  each: kind transport status class, up (RTCP rate, address, media rate, port, described), down\n");
    print_components(figures->values + 3, COMPONENT_FIGURES, 4, 5);
}

static void print_before(const struct figures *figures)
{
    printf(" kept %" PRIu64 "\n  each: kind live up down\n", figures->values[0]);
    print_components(figures->values + 1, WAS_FIGURES, WAS_FIGURES, 1);
}

void print_figures(const char *name, const struct figures *figures)
{
    printf("%s:", name);
    if (figures->count == STATE_FIGURES) {
        print_state(figures);
        return;
    }
    if (figures->count == BEFORE_FIGURES) {
        print_before(figures);
        return;
    }
    printf(" (%s)", figures->labels);
    for (unsigned i = 0; i < figures->count; i++)
        printf(" %" PRIu64, figures->values[i]);
    printf("\n");
}
