#include "malform.h"

#include "../server/file.h"
#include "draw.h"

#include <inttypes.h>
#include <stdio.h>
#include <string.h>

/* Up to the count of texts, and in all that are looked at. */
enum { HEAD_LINES = 8, LINES = 400 };

/* Where the lines start that are not in texts. */
struct lines {
    size_t starts[LINES];
    unsigned count;
    unsigned calls; /* which of them is the count of calls */
    uint32_t texts; /* how many there are */
};

struct file {
    uint8_t *bytes;
    size_t len, room;
};

/* The digits of a number in the file, and its value. */
struct number {
    size_t from, to;
    uint64_t value;
};

static size_t line_end(const struct file *file, size_t at)
{
    while (at < file->len && file->bytes[at] != '\n')
        at++;
    return at;
}

static void take_line(struct lines *lines, size_t start)
{
    if (lines->count < LINES)
        lines->starts[lines->count++] = start;
}

static void find_lines(const struct file *file, struct lines *lines)
{
    struct second_file rest = { .bytes = file->bytes, .len = file->len };
    struct second_file_text text;

    lines->count = 0;
    for (unsigned i = 0; i < HEAD_LINES; i++) {
        take_line(lines, rest.at);
        second_file_number(&rest, '\n', &lines->texts);
    }
    for (uint32_t i = 0; i < lines->texts; i++) {
        take_line(lines, rest.at);
        second_file_text(&rest, &text);
    }
    lines->calls = lines->count;
    for (size_t at = rest.at; at < file->len; at = line_end(file, at) + 1)
        take_line(lines, at);
}

/* Puts other bytes in the place of those from one up to another. */
static void put(struct file *file, size_t from, size_t to, const void *bytes, size_t len)
{
    if (file->len - (to - from) + len > file->room)
        return;
    memmove(file->bytes + from + len, file->bytes + to, file->len - to);
    memcpy(file->bytes + from, bytes, len);
    file->len = file->len - (to - from) + len;
}

static void put_word(struct file *file, size_t from, size_t to, const char *word)
{
    put(file, from, to, word, strlen(word));
}

/* Near the ends of the form: what stands in lines, and what stands close to it. */
static char telling_byte(uint64_t *seed)
{
    static const char bytes[] = "\0\r\n \t019-+./:OACXBoacxbS";

    return bytes[below(seed, sizeof bytes - 1)];
}

static void damage_byte(uint64_t *seed, struct file *file, size_t at)
{
    char byte = one_in(seed, 3) ? (char)file->bytes[at] : telling_byte(seed);

    switch (below(seed, 4)) {
    case 0:
        file->bytes[at] ^= (uint8_t)(1u << below(seed, 8));
        break;
    case 1:
        put(file, at, at + 1, "", 0);
        break;
    case 2:
        put(file, at, at + 1, &byte, 1);
        break;
    default:
        put(file, at, at, &byte, 1);
    }
}

static bool digit(const struct file *file, size_t at)
{
    return file->bytes[at] >= '0' && file->bytes[at] <= '9';
}

/* The number around a place in a line, or else the next one, which is empty at the end of the line. */
static struct number find_number(const struct file *file, size_t at, size_t end)
{
    while (at < end && !digit(file, at))
        at++;
    while (at > 0 && at < end && digit(file, at - 1))
        at--;
    struct number number = { .from = at, .to = at };
    for (; number.to < end && digit(file, number.to); number.to++)
        number.value = 10 * number.value + (file->bytes[number.to] - (unsigned)'0');
    return number;
}

/* In at least that many digits. */
static void put_number(struct file *file, struct number number, int least, uint64_t value)
{
    char digits[24];

    snprintf(digits, sizeof digits, "%0*" PRIu64, least, value);
    put_word(file, number.from, number.to, digits);
}

/* Beside the right one, the same in 11 digits or but for 2 to the power of 32, a byte next to the digits, or far off. */
static void damage_number(uint64_t *seed, struct file *file, struct number number)
{
    static const char *const wrong[] = { "4294967296", "9999999999", "42949672950", "18446744073709551616", "", "-1",
        "+1", "1 ", " 1", "0x1", "1,0", "64", "65", "4294967295", "12283", "99999" };

    switch (below(seed, 8)) {
    case 0:
        put_number(file, number, 1, number.value + 1);
        break;
    case 1:
        put_number(file, number, 1, number.value > 0 ? number.value - 1 : 1);
        break;
    case 2:
        put_number(file, number, 11, number.value);
        break;
    case 3:
        put_number(file, number, 1, number.value + ((uint64_t)1 << 32));
        break;
    case 4:
    case 5:
        put_word(file, number.from, number.to, one_in(seed, 2) ? "/" : ":");
        break;
    default:
        put_word(file, number.from, number.to, PICK(seed, wrong));
    }
}

/* In the first offer or answer from some call on: the number after that of the last text. */
static void name_unknown_text(uint64_t *seed, struct file *file, const struct lines *lines)
{
    for (unsigned i = lines->calls + below(seed, lines->count - lines->calls); i < lines->count; i++) {
        size_t start = lines->starts[i], end = line_end(file, start);
        if (file->bytes[start] == 'O' || file->bytes[start] == 'A') {
            put_number(file, find_number(file, end - 1, end), 1, lines->texts);
            return;
        }
    }
}

static void double_line(struct file *file, size_t start, size_t end)
{
    uint8_t line[64];

    if (end - start > sizeof line)
        return;
    memcpy(line, file->bytes + start, end - start);
    put(file, start, start, line, end - start);
}

static void put_space(uint64_t *seed, struct file *file, size_t start, size_t end)
{
    const uint8_t *space = memchr(file->bytes + start, ' ', end - start);

    switch (below(seed, 4)) {
    case 0:
        put_word(file, start, start, " ");
        break;
    case 1:
        put_word(file, end, end, " ");
        break;
    case 2:
        put_word(file, end, end, "\r");
        break;
    default:
        if (space)
            put_word(file, (size_t)(space - file->bytes), (size_t)(space - file->bytes), " ");
    }
}

static void damage_line(uint64_t *seed, struct file *file, size_t start)
{
    size_t end = line_end(file, start), next = end < file->len ? end + 1 : end;

    switch (below(seed, 10)) {
    case 0:
        put(file, start, next, "", 0);
        break;
    case 1:
        double_line(file, start, next);
        break;
    case 2:
    case 3:
        put_space(seed, file, start, end);
        break;
    case 4:
    case 5:
    case 6:
    case 7:
        damage_number(seed, file, find_number(file, start + below(seed, (unsigned)(next - start)), end));
        break;
    default:
        damage_byte(seed, file, start + below(seed, (unsigned)(next - start)));
    }
}

static void damage_end(uint64_t *seed, struct file *file)
{
    static const char *const tails[] = { "\n", "\n", " ", "\r", "0", "C 0\n", "X 0" };

    switch (below(seed, 6)) {
    case 0:
        file->len--;
        break;
    case 1:
        file->len = below(seed, (unsigned)file->len);
        break;
    case 2:
        put(file, file->len, file->len, "\0", 1);
        break;
    default:
        put_word(file, file->len, file->len, PICK(seed, tails));
    }
}

size_t second_malform(uint64_t *seed, uint8_t *file, size_t len, size_t room)
{
    struct file damaged = { file, len, room };
    struct lines lines;

    find_lines(&damaged, &lines);
    const unsigned counts[] = { 0, HEAD_LINES - 1, lines.calls };
    switch (below(seed, 14)) {
    case 0:
        damage_byte(seed, &damaged, below(seed, (unsigned)len));
        break;
    case 1:
    case 2:
    case 3:
        damage_end(seed, &damaged);
        break;
    case 4:
    case 5:
    case 6:
        damage_line(seed, &damaged, lines.starts[PICK(seed, counts)]);
        break;
    case 7:
    case 8:
        damage_line(seed, &damaged, lines.starts[below(seed, lines.calls)]);
        break;
    case 9:
        name_unknown_text(seed, &damaged, &lines);
        break;
    default:
        damage_line(seed, &damaged, lines.starts[lines.calls + below(seed, lines.count - lines.calls)]);
    }
    return damaged.len;
}
