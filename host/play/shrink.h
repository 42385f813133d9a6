#ifndef PLAY_SHRINK_H
#define PLAY_SHRINK_H

#include "compare.h"

/* Makes a file that differs smaller, in its place, for as long as it still differs; returns its length. */
size_t play_shrink(uint8_t *file, size_t len, enum play_room room);

#endif
