#ifndef BENCH_SECTIONS_H
#define BENCH_SECTIONS_H

#include <stddef.h>
#include <stdint.h>

/*
 * Writes an offer or an answer of 1 to 8 components, and returns its length: audio, video and the rest by turns, some rates
 * given, the answer in all directions by turns. The buffer has SECOND_WRITTEN_BYTES.
 */
size_t write_sections(unsigned count, int answer, uint8_t *out);

#endif
