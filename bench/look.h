#ifndef BENCH_LOOK_H
#define BENCH_LOOK_H

#include "books.h"

/* Prints the look and a plain reading; false, after a message, where the call is not answered as it should be. */
bool bench_look(struct book *book);

#endif
