#ifndef SHARED_PRINT_TEXT_H
#define SHARED_PRINT_TEXT_H

#include <stddef.h>
#include <stdint.h>

/* As C string literals, one for each line. */
void print_text(const char *name, const uint8_t *text, size_t len);

#endif
