#ifndef PLAY_LENT_H
#define PLAY_LENT_H

#include <stddef.h>
#include <stdint.h>

/* Must be called first. */
void play_lent_start(void);

/*
 * Plays a call file, call by call, by the library's calls over 16 lent rows, and writes the output that the answers give.
 * Returns its length; out has SECOND_EVENING_BYTES of room.
 */
size_t play_lent(const uint8_t *file, size_t len, uint8_t *out);

#endif
