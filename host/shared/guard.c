#define _DEFAULT_SOURCE
#include "guard.h"

#include <stdio.h>
#include <stdlib.h>
#include <string.h>
#include <sys/mman.h>
#include <unistd.h>

enum { CANARIES = 64, CANARY = 0xc5 };

static void give_up(void)
{
    perror("host");
    exit(2);
}

void make_guard_for(struct guarded *guarded, size_t room)
{
    size_t page = (size_t)sysconf(_SC_PAGESIZE);
    size_t bytes = (CANARIES + room + page - 1) / page * page;
    uint8_t *map = mmap(NULL, bytes + page, PROT_READ | PROT_WRITE, MAP_PRIVATE | MAP_ANONYMOUS, -1, 0);

    if (map == MAP_FAILED || mprotect(map + bytes, page, PROT_NONE) != 0)
        give_up();
    guarded->map = map;
    guarded->guard = map + bytes;
    guard_bytes(guarded, 0);
}

void make_guard(struct guarded *guarded)
{
    make_guard_for(guarded, TEXT_ROOM);
}

uint8_t *guard_bytes(struct guarded *guarded, size_t len)
{
    uint8_t *bytes = guarded->guard - len;

    guarded->len = len;
    guarded->text = bytes;
    memset(bytes - CANARIES, CANARY, CANARIES);
    return bytes;
}

void guard_text(struct guarded *guarded, const uint8_t *text, size_t len)
{
    uint8_t *bytes = guard_bytes(guarded, len);

    if (len > 0)
        memcpy(bytes, text, len);
}

void guard_read_only(const struct guarded *guarded, bool read_only)
{
    size_t bytes = (size_t)(guarded->guard - guarded->map);

    if (mprotect(guarded->map, bytes, read_only ? PROT_READ : PROT_READ | PROT_WRITE) != 0)
        give_up();
}

bool guard_intact(const struct guarded *guarded)
{
    for (const uint8_t *at = guarded->text - CANARIES; at < guarded->text; at++)
        if (*at != CANARY)
            return false;
    return true;
}
