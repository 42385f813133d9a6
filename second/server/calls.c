#include "calls.h"

#include <string.h>

enum { SETTINGS = 6 };

const char second_letters[SECOND_STATEMENT] = { 'O', 'A', 'C', 'X', 'B' };

unsigned second_call_numbers(enum second_letter letter)
{
    static const unsigned char numbers[SECOND_STATEMENT] = { 3, 2, 1, 1, 5 };

    return numbers[letter];
}

unsigned second_call_text(enum second_letter letter)
{
    static const unsigned char text[SECOND_STATEMENT] = { 2, 1, 1, 1, 5 };

    return text[letter];
}

static bool read_settings(struct second_file *file, struct second_calls *calls)
{
    uint32_t count, settings[SETTINGS];

    if (!second_file_number(file, '\n', &count) || count != SETTINGS)
        return false;
    for (unsigned i = 0; i < SETTINGS; i++)
        if (!second_file_number(file, '\n', &settings[i]))
            return false;
    calls->settings = (struct second_settings) { settings[0], settings[1], settings[2], settings[3] };
    calls->pool = (struct second_pool) { settings[4], settings[5] };
    return true;
}

static bool read_texts(struct second_file *file, struct second_calls *calls)
{
    if (!second_file_number(file, '\n', &calls->text_count) || calls->text_count > SECOND_FILE_TEXTS)
        return false;
    for (uint32_t i = 0; i < calls->text_count; i++)
        if (!second_file_text(file, &calls->texts[i]))
            return false;
    return true;
}

static bool read_letter(struct second_file *file, enum second_letter *letter)
{
    if (file->len - file->at < 2 || file->bytes[file->at + 1] != ' ')
        return false;
    const char *found = memchr(second_letters, file->bytes[file->at], sizeof second_letters);
    if (!found)
        return false;
    *letter = (enum second_letter)(found - second_letters);
    file->at += 2;
    return true;
}

static bool read_call(struct second_file *file, uint32_t text_count, struct second_call_line *line)
{
    if (!read_letter(file, &line->letter))
        return false;
    unsigned count = second_call_numbers(line->letter), text = second_call_text(line->letter);
    for (unsigned i = 0; i < count; i++)
        if (!second_file_number(file, i + 1 < count ? ' ' : '\n', &line->numbers[i]))
            return false;
    return text == count || line->numbers[text] < text_count;
}

/* To the end of the file. */
static bool read_calls(struct second_file *file, struct second_calls *calls)
{
    if (!second_file_number(file, '\n', &calls->call_count) || calls->call_count > SECOND_FILE_CALLS)
        return false;
    for (uint32_t i = 0; i < calls->call_count; i++)
        if (!read_call(file, calls->text_count, &calls->calls[i]))
            return false;
    return file->at == file->len;
}

bool second_read_calls(const uint8_t *file, size_t len, struct second_calls *calls)
{
    struct second_file rest = { .bytes = file, .len = len };

    return len > 0 && len <= SECOND_FILE_BYTES && read_settings(&rest, calls) && read_texts(&rest, calls)
        && read_calls(&rest, calls);
}

struct second_ask second_call_ask(const struct second_calls *calls, const struct second_call_line *line)
{
    unsigned text = second_call_text(line->letter);
    struct second_ask ask = { .letter = line->letter, .session = line->numbers[0], .settings = calls->settings,
        .pool = calls->pool };

    if (line->letter == SECOND_OFFER)
        ask.origin = line->numbers[1];
    if (line->letter == SECOND_BEARER)
        ask.asked = (struct second_asked) { line->numbers[1], line->numbers[2], line->numbers[3], line->numbers[4] };
    if (text < second_call_numbers(line->letter)) {
        ask.text = calls->texts[line->numbers[text]].bytes;
        ask.len = calls->texts[line->numbers[text]].len;
    }
    return ask;
}
