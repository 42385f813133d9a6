#include "shrink.h"

#include "../../second/generate/evening.h"
#include "pieces.h"

#include <string.h>

/* So many files are tried at most; some, such as one of just 49,152 bytes, cannot be made smaller. */
enum { TRIES = 10000 };

/* The file that differs, its pieces, and one that is tried. */
struct shrink {
    uint8_t *file;
    size_t len;
    enum play_room room;
    unsigned tries; /* that are left */
    struct pieces pieces;
    uint8_t tried[SECOND_GENERATED_FILE_BYTES];
    uint8_t text[SECOND_GENERATED_FILE_BYTES];
};

/* Takes the file that is tried if it is smaller and still differs. */
static bool take(struct shrink *shrink, size_t len)
{
    if (len >= shrink->len || shrink->tries == 0)
        return false;
    shrink->tries--;
    if (!play_differs(shrink->tried, len, shrink->room))
        return false;
    memcpy(shrink->file, shrink->tried, len);
    shrink->len = len;
    play_cut(shrink->file, shrink->len, &shrink->pieces);
    return true;
}

static bool take_pieces(struct shrink *shrink, const struct pieces *pieces)
{
    return take(shrink, play_join(pieces, shrink->tried, sizeof shrink->tried));
}

static void drop_calls(struct shrink *shrink)
{
    for (unsigned size = shrink->pieces.calls; size > 0; size /= 2)
        for (unsigned from = 0; from + size <= shrink->pieces.calls;) {
            struct pieces less = shrink->pieces;
            play_drop_calls(&less, from, from + size);
            if (!take_pieces(shrink, &less))
                from += size;
        }
}

static void drop_texts(struct shrink *shrink)
{
    for (unsigned i = shrink->pieces.texts; i > 0; i--) {
        struct pieces less = shrink->pieces;
        play_drop_text(&less, i - 1);
        take_pieces(shrink, &less);
    }
}

static bool drop_text_part(struct shrink *shrink, unsigned number, size_t from, size_t to)
{
    struct pieces less = shrink->pieces;
    struct piece *text = &less.text[number].text;

    memcpy(shrink->text, text->bytes, from);
    memcpy(shrink->text + from, text->bytes + to, text->len - to);
    *text = (struct piece) { shrink->text, text->len - (to - from) };
    less.text[number].length.number = text->len;
    return take_pieces(shrink, &less);
}

static void drop_text_parts(struct shrink *shrink)
{
    for (unsigned i = 0; i < shrink->pieces.texts; i++)
        for (size_t size = shrink->pieces.text[i].text.len; size > 0; size /= 2)
            for (size_t from = 0; i < shrink->pieces.texts && from + size <= shrink->pieces.text[i].text.len;)
                if (!drop_text_part(shrink, i, from, from + size))
                    from += size;
}

static void drop_bytes(struct shrink *shrink)
{
    for (size_t size = shrink->len / 2; size > 0; size /= 2)
        for (size_t from = 0; from + size <= shrink->len;) {
            memcpy(shrink->tried, shrink->file, from);
            memcpy(shrink->tried + from, shrink->file + from + size, shrink->len - from - size);
            if (!take(shrink, shrink->len - size))
                from += size;
        }
}

size_t play_shrink(uint8_t *file, size_t len, enum play_room room)
{
    static struct shrink shrink;
    size_t before;

    shrink.file = file;
    shrink.len = len;
    shrink.room = room;
    shrink.tries = TRIES;
    play_cut(file, len, &shrink.pieces);
    do {
        before = shrink.len;
        drop_calls(&shrink);
        drop_texts(&shrink);
        drop_text_parts(&shrink);
        drop_bytes(&shrink);
    } while (shrink.len < before);
    return shrink.len;
}
