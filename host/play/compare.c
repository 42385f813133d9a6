#include "compare.h"

#include "../../second/generate/evening.h"
#include "../../second/server/evening.h"
#include "../shared/guard.h"
#include "lent.h"

#include <frumxadda.h>
#include <string.h>

/* Bytes for each line of an output, of which none has more than 40. */
enum { LINE_ROOM = 64, UNWRITTEN = 0xa5 };

static struct guarded guarded_file, guarded_out;
static uint8_t output[SECOND_EVENING_BYTES], lent_output[SECOND_EVENING_BYTES];
static struct play_result given, lent = { lent_output, sizeof lent_output, 0 }, expected = { output, sizeof output, 0 };

void play_start(void)
{
    make_guard_for(&guarded_file, SECOND_GENERATED_FILE_BYTES);
    make_guard_for(&guarded_out, SECOND_EVENING_BYTES);
    play_lent_start();
}

static size_t ample_room(void)
{
    size_t room = LINE_ROOM;

    for (size_t i = 0; i < expected.length; i++)
        room += output[i] == '\n' ? LINE_ROOM : 0;
    return room < sizeof output ? room : sizeof output;
}

static size_t room_of(enum play_room room)
{
    switch (room) {
    case AMPLE_ROOM:
        return ample_room();
    case ANY_ROOM:
        return sizeof output;
    case JUST_ROOM:
        return expected.length;
    default:
        return expected.length - 1;
    }
}

static bool unwritten(const uint8_t *bytes, size_t len)
{
    for (size_t i = 0; i < len; i++)
        if (bytes[i] != UNWRITTEN)
            return false;
    return true;
}

/* The file and the canaries are as they were, and no byte past the output is written. */
static bool kept(const uint8_t *file, size_t len, size_t written)
{
    return memcmp(guarded_file.text, file, len) == 0 && unwritten(given.out + written, given.room - written)
        && guard_intact(&guarded_file) && guard_intact(&guarded_out);
}

bool play_differs(const uint8_t *file, size_t len, enum play_room kind)
{
    expected.length = second_evening_play(file, len, output, sizeof output);
    size_t room = room_of(kind), written = expected.length <= room ? expected.length : 0;
    uint8_t *out = guard_bytes(&guarded_out, room);

    guard_text(&guarded_file, file, len);
    memset(out, UNWRITTEN, room);
    given = (struct play_result) { out, room, frumxadda_play(guarded_file.text, len, out, room) };
    lent.length = play_lent(file, len, lent_output);
    return given.length != expected.length || memcmp(out, output, written) != 0 || !kept(file, len, written)
        || lent.length != expected.length || memcmp(lent_output, output, expected.length) != 0;
}

struct play_result play_given(void)
{
    return given;
}

struct play_result play_lent_given(void)
{
    return lent;
}

struct play_result play_expected(void)
{
    return expected;
}
