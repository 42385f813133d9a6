#include "statement.h"

#include "number.h"

#include <string.h>

static const char *const kinds[] = { "audio", "video", "application", "data", "control", "other" };

static uint8_t *put_word(uint8_t *at, const char *word)
{
    size_t len = strlen(word);

    memcpy(at, word, len);
    return at + len;
}

static uint8_t *put_field(uint8_t *at, uint64_t number)
{
    *at++ = ' ';
    return second_put_number(at, number);
}

static uint8_t *put_component(uint8_t *at, unsigned number, const struct second_component *component)
{
    at = second_put_number(at, number);
    *at++ = ' ';
    at = put_word(at, kinds[component->kind - 1]);
    at = put_field(at, component->status);
    at = put_field(at, component->class_number);
    at = put_field(at, component->up.media);
    at = put_field(at, component->down.media);
    at = put_field(at, component->up.rtcp);
    at = put_field(at, component->down.rtcp);
    *at++ = '\n';
    return at;
}

size_t second_write_statement(const struct second_row *row, uint8_t out[SECOND_STATEMENT_BYTES])
{
    uint8_t *at = put_field(put_word(out, "components"), row->count);

    *at++ = '\n';
    for (unsigned i = 0; i < row->count; i++)
        at = put_component(at, i + 1, &row->components[i]);
    return (size_t)(at - out);
}
