#ifndef BENCH_BENCH_H
#define BENCH_BENCH_H

#include <stdbool.h>

/* Each prints its lines of the table; false, after a message, where the two programs do not do the same. */
bool bench_texts(void);
bool bench_derive(void);
bool bench_calls(void);
bool bench_play(void);

#endif
