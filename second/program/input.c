#include "input.h"

#include <stdio.h>
#include <stdlib.h>

static uint8_t *grow(uint8_t *bytes, size_t room)
{
    uint8_t *wider = realloc(bytes, room);

    if (!wider)
        free(bytes);
    return wider;
}

uint8_t *read_input(size_t most, size_t *len)
{
    size_t room = 1 << 16;
    uint8_t *bytes = malloc(room);

    *len = 0;
    while (bytes) {
        size_t wanted = room < most ? room : most;
        *len += fread(bytes + *len, 1, wanted - *len, stdin);
        if (*len < room) {
            if (!ferror(stdin))
                return bytes;
            free(bytes);
            return NULL;
        }
        room *= 2;
        bytes = grow(bytes, room);
    }
    return NULL;
}
