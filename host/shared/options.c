#include "options.h"

#include <stdbool.h>
#include <stdio.h>
#include <stdlib.h>
#include <string.h>

void read_options(const char *program, int argc, char **argv, uint64_t *seed, unsigned long *count)
{
    for (int i = 1; i < argc; i += 2) {
        char *end = NULL;
        unsigned long long value = i + 1 < argc ? strtoull(argv[i + 1], &end, 10) : 0;
        bool good = end && end != argv[i + 1] && *end == '\0';
        if (good && strcmp(argv[i], "--seed") == 0) {
            *seed = value;
        } else if (good && strcmp(argv[i], "--count") == 0) {
            *count = (unsigned long)value;
        } else {
            fprintf(stderr, "usage: %s [--seed N] [--count N]\n", program);
            exit(2);
        }
    }
}
