#include "write_calls.h"

#include <inttypes.h>
#include <stdio.h>
#include <string.h>

enum { SETTINGS = 6 };

struct writer {
    uint8_t *out;
    size_t len, room;
    uint64_t zeros;
};

static void put_bytes(struct writer *writer, const void *bytes, size_t len)
{
    if (len > writer->room - writer->len)
        len = writer->room - writer->len;
    if (len > 0)
        memcpy(writer->out + writer->len, bytes, len);
    writer->len += len;
}

static void put_number(struct writer *writer, uint32_t number, char ending)
{
    char digits[12];

    int len = snprintf(digits, sizeof digits, writer->zeros & 1 ? "%010" PRIu32 "%c" : "%" PRIu32 "%c", number, ending);
    put_bytes(writer, digits, (size_t)len);
    writer->zeros = writer->zeros >> 1 | (writer->zeros & 1) << 63;
}

static void put_settings(struct writer *writer, const struct second_settings *settings, const struct second_pool *pool)
{
    const uint32_t numbers[SETTINGS] = { settings->media_up, settings->media_down, settings->rtcp_up,
        settings->rtcp_down, pool->up, pool->down };

    put_number(writer, SETTINGS, '\n');
    for (unsigned i = 0; i < SETTINGS; i++)
        put_number(writer, numbers[i], '\n');
}

static void put_call(struct writer *writer, const struct second_call_line *line)
{
    unsigned count = second_call_numbers(line->letter);

    put_bytes(writer, &second_letters[line->letter], 1);
    put_bytes(writer, " ", 1);
    for (unsigned i = 0; i < count; i++)
        put_number(writer, line->numbers[i], i + 1 < count ? ' ' : '\n');
}

size_t second_write_calls(const struct second_calls *calls, uint64_t zeros, uint8_t *out, size_t room)
{
    struct writer writer = { .out = out, .room = room, .zeros = zeros };

    put_settings(&writer, &calls->settings, &calls->pool);
    put_number(&writer, calls->text_count, '\n');
    for (uint32_t i = 0; i < calls->text_count; i++) {
        put_number(&writer, (uint32_t)calls->texts[i].len, '\n');
        put_bytes(&writer, calls->texts[i].bytes, calls->texts[i].len);
    }
    put_number(&writer, calls->call_count, '\n');
    for (uint32_t i = 0; i < calls->call_count; i++)
        put_call(&writer, &calls->calls[i]);
    return writer.len;
}
