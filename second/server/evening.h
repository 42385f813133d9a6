#ifndef SECOND_SERVER_EVENING_H
#define SECOND_SERVER_EVENING_H

#include <stddef.h>
#include <stdint.h>

/* No output is longer: the first line, that of each call a file can have, the last line. */
enum { SECOND_EVENING_BYTES = 12 + 12282 * 40 + 29 };

/*
 * Plays a call file over a book of 16 fresh rows. Returns the length of the whole output and writes it to out,
 * or, where it is longer than room, writes nothing. Takes less than 1 MiB of stack.
 */
size_t second_evening_play(const uint8_t *file, size_t len, uint8_t *out, size_t room);

#endif
