#include "../server/evening.h"
#include "print.h"

#include <stdio.h>

int print_play(struct second_file *file)
{
    static uint8_t output[SECOND_EVENING_BYTES];

    fwrite(output, 1, second_evening_play(file->bytes, file->len, output, sizeof output), stdout);
    return 0;
}
