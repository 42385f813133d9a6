#include "pieces.h"

#include <inttypes.h>
#include <stdbool.h>
#include <stdio.h>
#include <string.h>

enum { SETTINGS_LINES = 7, DIGITS = 18 };

static struct piece take(struct piece *rest, size_t len)
{
    struct piece taken = { rest->bytes, len };

    *rest = (struct piece) { rest->bytes + len, rest->len - len };
    return taken;
}

/* With its LF, if there is one. */
static struct piece take_line(struct piece *rest)
{
    const uint8_t *lf = rest->len > 0 ? memchr(rest->bytes, '\n', rest->len) : NULL;

    return take(rest, lf ? (size_t)(lf - rest->bytes) + 1 : rest->len);
}

static bool digit(uint8_t byte)
{
    return byte >= '0' && byte <= '9';
}

/* Steps over a line, unless it has no number, or too long a one. */
static bool cut_line(struct piece *rest, struct piece_line *line)
{
    struct piece after = *rest, whole = take_line(&after);
    size_t end = whole.len;

    while (end > 0 && !digit(whole.bytes[end - 1]))
        end--;
    size_t start = end;
    while (start > 0 && digit(whole.bytes[start - 1]))
        start--;
    if (start == end || end - start > DIGITS)
        return false;
    *line = (struct piece_line) { .before = take(&whole, start), .digits = (int)(end - start) };
    for (; start < end; start++)
        line->number = 10 * line->number + (*take(&whole, 1).bytes - (unsigned)'0');
    line->after = whole;
    *rest = after;
    return true;
}

static bool cut_text(struct piece *rest, struct piece_text *text)
{
    struct piece after = *rest;

    if (!cut_line(&after, &text->length) || text->length.number > after.len)
        return false;
    text->text = take(&after, (size_t)text->length.number);
    *rest = after;
    return true;
}

void play_cut(const uint8_t *file, size_t len, struct pieces *pieces)
{
    struct piece rest = { file, len };
    size_t settings = 0;

    pieces->counts = pieces->texts = pieces->calls = 0;
    for (unsigned i = 0; i < SETTINGS_LINES; i++)
        settings += take_line(&rest).len;
    pieces->settings = (struct piece) { file, settings };
    if (cut_line(&rest, &pieces->text_count)) {
        pieces->counts++;
        while (pieces->texts < PIECE_TEXTS && pieces->texts < pieces->text_count.number
            && cut_text(&rest, &pieces->text[pieces->texts]))
            pieces->texts++;
        if (cut_line(&rest, &pieces->call_count))
            pieces->counts++;
    }
    while (pieces->counts == 2 && pieces->calls < PIECE_CALLS && cut_line(&rest, &pieces->call[pieces->calls]))
        pieces->calls++;
    pieces->tail = rest;
}

/* What is being put together, up to its room. */
struct join {
    uint8_t *out;
    size_t len, room;
};

static void put(struct join *join, struct piece piece)
{
    size_t len = piece.len < join->room - join->len ? piece.len : join->room - join->len;

    if (len > 0)
        memcpy(join->out + join->len, piece.bytes, len);
    join->len += len;
}

static void put_line(struct join *join, const struct piece_line *line)
{
    char digits[24];
    int len = snprintf(digits, sizeof digits, "%0*" PRIu64, line->digits, line->number);

    put(join, line->before);
    put(join, (struct piece) { (const uint8_t *)digits, (size_t)len });
    put(join, line->after);
}

size_t play_join(const struct pieces *pieces, uint8_t *out, size_t room)
{
    struct join join = { .out = out, .room = room };

    put(&join, pieces->settings);
    if (pieces->counts >= 1)
        put_line(&join, &pieces->text_count);
    for (unsigned i = 0; i < pieces->texts; i++) {
        put_line(&join, &pieces->text[i].length);
        put(&join, pieces->text[i].text);
    }
    if (pieces->counts >= 2)
        put_line(&join, &pieces->call_count);
    for (unsigned i = 0; i < pieces->calls; i++)
        put_line(&join, &pieces->call[i]);
    put(&join, pieces->tail);
    return join.len;
}

void play_drop_calls(struct pieces *pieces, unsigned from, unsigned to)
{
    memmove(&pieces->call[from], &pieces->call[to], (pieces->calls - to) * sizeof pieces->call[0]);
    pieces->calls -= to - from;
    pieces->call_count.number -= to - from;
}

static bool names_text(const struct piece_line *call)
{
    return call->before.len > 0 && (*call->before.bytes == 'O' || *call->before.bytes == 'A');
}

void play_drop_text(struct pieces *pieces, unsigned number)
{
    memmove(&pieces->text[number], &pieces->text[number + 1], (pieces->texts - number - 1) * sizeof pieces->text[0]);
    pieces->texts--;
    pieces->text_count.number--;
    for (unsigned i = 0; i < pieces->calls; i++)
        if (names_text(&pieces->call[i]) && pieces->call[i].number > number)
            pieces->call[i].number--;
}
