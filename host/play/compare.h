#ifndef PLAY_COMPARE_H
#define PLAY_COMPARE_H

#include <stdbool.h>
#include <stddef.h>
#include <stdint.h>

/* How long the buffer is that is lent: surely enough for this output, or for any, just enough, one byte too few. */
enum play_room { AMPLE_ROOM, ANY_ROOM, JUST_ROOM, TOO_FEW_ROOM, PLAY_ROOMS };

/* The bytes that a buffer holds after a file was played into it, and the length returned. */
struct play_result {
    const uint8_t *out;
    size_t room, length;
};

/* Must be called first. */
void play_start(void);

/* Plays the file by the library, between guards, then by its calls over lent rows, and by second: whether lengths or bytes differ. */
bool play_differs(const uint8_t *file, size_t len, enum play_room room);

/* What the library, its calls over lent rows, and second gave the last time. */
struct play_result play_given(void);
struct play_result play_lent_given(void);
struct play_result play_expected(void);

#endif
