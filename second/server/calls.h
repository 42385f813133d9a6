#ifndef SECOND_SERVER_CALLS_H
#define SECOND_SERVER_CALLS_H

#include "book.h"
#include "file.h"

/* What a call file has at most; more calls than these do not fit its bytes. */
enum { SECOND_FILE_BYTES = 49152, SECOND_FILE_TEXTS = 64, SECOND_FILE_CALLS = 12282 };

/* The letter of each call of the book; a call file has no statement. */
extern const char second_letters[SECOND_STATEMENT];

/* A call: its letter and the numbers after it, in their order. */
struct second_call_line {
    enum second_letter letter;
    uint32_t numbers[5];
};

/* A call file taken apart. */
struct second_calls {
    struct second_settings settings;
    struct second_pool pool;
    uint32_t text_count, call_count;
    struct second_file_text texts[SECOND_FILE_TEXTS]; /* in the bytes of the file */
    struct second_call_line calls[SECOND_FILE_CALLS];
};

/* False if the file is malformed; then calls is not to be looked at. */
bool second_read_calls(const uint8_t *file, size_t len, struct second_calls *calls);

/* How many numbers a call has, and which of them is its text, or that same count if none is. */
unsigned second_call_numbers(enum second_letter letter);
unsigned second_call_text(enum second_letter letter);

/* The call as the book takes it. */
struct second_ask second_call_ask(const struct second_calls *calls, const struct second_call_line *line);

#endif
