#ifndef SECOND_GENERATE_TEXT_H
#define SECOND_GENERATE_TEXT_H

#include <stddef.h>
#include <stdint.h>

enum { SECOND_GENERATED_BYTES = 4200 };

/*
 * Makes one text, good or damaged, of at most 4,200 bytes and at most room.
 * The same state gives the same text, and is moved on to that of the next.
 */
size_t second_generate_text(uint64_t *state, uint8_t *out, size_t room);

#endif
