#include "file.h"

enum { DIGITS = 10 };

bool second_file_number(struct second_file *file, uint8_t ending, uint32_t *number)
{
    const uint8_t *start = file->bytes + file->at, *end = file->bytes + file->len, *p = start;
    uint64_t sum = 0;

    for (; p < end && *p >= '0' && *p <= '9'; p++) {
        if (p - start == DIGITS)
            return false;
        sum = 10 * sum + (*p - (unsigned)'0');
    }
    if (p == start || p == end || *p != ending || sum > UINT32_MAX)
        return false;
    *number = (uint32_t)sum;
    file->at += (size_t)(p - start) + 1;
    return true;
}

bool second_file_text(struct second_file *file, struct second_file_text *text)
{
    uint32_t len;

    if (!second_file_number(file, '\n', &len) || len > file->len - file->at)
        return false;
    *text = (struct second_file_text) { file->bytes + file->at, len };
    file->at += len;
    return true;
}
