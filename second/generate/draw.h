#ifndef SECOND_GENERATE_DRAW_H
#define SECOND_GENERATE_DRAW_H

#include "random.h"

#include <stdbool.h>

#define PICK(seed, list) ((list)[below(seed, sizeof(list) / sizeof((list)[0]))])

static inline unsigned below(uint64_t *seed, unsigned bound)
{
    return (unsigned)(second_draw(seed) % bound);
}

static inline bool one_in(uint64_t *seed, unsigned bound)
{
    return below(seed, bound) == 0;
}

#endif
