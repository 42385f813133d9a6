#ifndef SECOND_SERVER_FILE_H
#define SECOND_SERVER_FILE_H

#include <stdbool.h>
#include <stddef.h>
#include <stdint.h>

/* The bytes of a file, and how far they were read. */
struct second_file {
    const uint8_t *bytes;
    size_t len, at;
};

struct second_file_text {
    const uint8_t *bytes;
    size_t len;
};

/* Each steps over what it reads; false if that is malformed. */

/* 1 to 10 digits, at most 4,294,967,295, and the ending. */
bool second_file_number(struct second_file *file, uint8_t ending, uint32_t *number);

/* A length line, then the bytes. */
bool second_file_text(struct second_file *file, struct second_file_text *text);

#endif
