#ifndef SHARED_OPTIONS_H
#define SHARED_OPTIONS_H

#include <stdint.h>

/* Leaves what is not given; stops at an option that is neither --seed N nor --count N. */
void read_options(const char *program, int argc, char **argv, uint64_t *seed, unsigned long *count);

#endif
