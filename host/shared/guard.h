#ifndef SHARED_GUARD_H
#define SHARED_GUARD_H

#include <stdbool.h>
#include <stddef.h>
#include <stdint.h>

/* The longest text that can be guarded. */
enum { TEXT_ROOM = 8192 };

/* Bytes, most often a text, that end where the page begins that cannot be touched; canaries stand in front of them. */
struct guarded {
    uint8_t *map, *guard;
    const uint8_t *text;
    size_t len;
};

/* Must be called first: with room for a text, or for that many bytes. */
void make_guard(struct guarded *guarded);
void make_guard_for(struct guarded *guarded, size_t room);

/* Makes room for so many bytes before the guard. */
uint8_t *guard_bytes(struct guarded *guarded, size_t len);

/* Puts a copy of the text before the guard. */
void guard_text(struct guarded *guarded, const uint8_t *text, size_t len);

/* Lets the bytes be read only, or written again. */
void guard_read_only(const struct guarded *guarded, bool read_only);

/* Whether the canaries are as they were. */
bool guard_intact(const struct guarded *guarded);

#endif
