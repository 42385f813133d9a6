#ifndef SECOND_GENERATE_WRITE_CALLS_H
#define SECOND_GENERATE_WRITE_CALLS_H

#include "../server/calls.h"

/*
 * Writes a call file, as far as there is room, and returns its length.
 * Bits of zeros, by turns: whether a number has zeros before it, ten digits in all.
 */
size_t second_write_calls(const struct second_calls *calls, uint64_t zeros, uint8_t *out, size_t room);

#endif
