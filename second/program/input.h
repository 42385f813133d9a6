#ifndef SECOND_PROGRAM_INPUT_H
#define SECOND_PROGRAM_INPUT_H

#include <stddef.h>
#include <stdint.h>

/* The standard input up to that many bytes, to be freed, and its length; NULL if it cannot be read or held. */
uint8_t *read_input(size_t most, size_t *len);

#endif
