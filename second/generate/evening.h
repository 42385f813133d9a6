#ifndef SECOND_GENERATE_EVENING_H
#define SECOND_GENERATE_EVENING_H

#include <stddef.h>
#include <stdint.h>

/* Some files are longer than the 49,152 bytes that a call file has at most. */
enum { SECOND_GENERATED_FILE_BYTES = 50000 };

/*
 * Makes one call file of at most 250 calls, about one in eight malformed, and returns its length.
 * The same seed gives the same file, and is moved on to that of the next.
 */
size_t second_generate_evening(uint64_t *seed, uint8_t out[SECOND_GENERATED_FILE_BYTES]);

#endif
