#ifndef SECOND_GENERATE_MALFORM_H
#define SECOND_GENERATE_MALFORM_H

#include <stddef.h>
#include <stdint.h>

/* Damages a call file, well formed but for its length, mostly so that it no longer is; returns the new length. */
size_t second_malform(uint64_t *seed, uint8_t *file, size_t len, size_t room);

#endif
