#ifndef PLAY_PIECES_H
#define PLAY_PIECES_H

#include <stddef.h>
#include <stdint.h>

enum { PIECE_TEXTS = 80, PIECE_CALLS = 400 };

struct piece {
    const uint8_t *bytes;
    size_t len;
};

/* A line: its last number, in that many digits, and what stands before and after it. */
struct piece_line {
    struct piece before, after;
    uint64_t number;
    int digits;
};

struct piece_text {
    struct piece_line length;
    struct piece text;
};

/* A call file cut up, as far as it can be, malformed or not: what could not be is the tail. */
struct pieces {
    struct piece settings, tail;
    unsigned counts; /* how many of the two counts were found */
    struct piece_line text_count, call_count;
    unsigned texts, calls;
    struct piece_text text[PIECE_TEXTS];
    struct piece_line call[PIECE_CALLS];
};

void play_cut(const uint8_t *file, size_t len, struct pieces *pieces);

/* Puts them together again, as far as there is room. */
size_t play_join(const struct pieces *pieces, uint8_t *out, size_t room);

/* Each takes something away and makes the counts and lengths follow, also the calls that name a later text. */
void play_drop_calls(struct pieces *pieces, unsigned from, unsigned to);
void play_drop_text(struct pieces *pieces, unsigned number);

#endif
