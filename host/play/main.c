#include "../../second/generate/evening.h"
#include "../shared/options.h"
#include "../shared/print_text.h"
#include "compare.h"
#include "shrink.h"

#include <inttypes.h>
#include <stdio.h>
#include <stdlib.h>
#include <string.h>

/* 19 and 20 cannot be had by a file. */
enum { REFUSALS = 19, ROOMS_EVERY = 8 };

struct counts {
    unsigned long files, calls, bad_files, refusals[REFUSALS];
};

static void print_result(const char *name, struct play_result result)
{
    size_t shown = result.length < result.room ? result.length : result.room;

    printf("%s returned %zu for a buffer of %zu bytes\n", name, result.length, result.room);
    print_text(name, result.out, shown);
}

static void fail(uint8_t *file, size_t len, uint64_t seed, enum play_room room)
{
    len = play_shrink(file, len, room);
    play_differs(file, len, room);
    printf("difference in the file of --seed %" PRIu64 " --count 1, here made smaller\n", seed);
    print_text("file", file, len);
    print_result("frumxadda_play", play_given());
    print_result("the calls over lent rows", play_lent_given());
    print_result("second_evening_play", play_expected());
    exit(1);
}

static void compare(uint8_t *file, size_t len, uint64_t seed, bool all_rooms)
{
    for (unsigned room = AMPLE_ROOM; room < (all_rooms ? PLAY_ROOMS : AMPLE_ROOM + 1); room++)
        if (play_differs(file, len, (enum play_room)room))
            fail(file, len, seed, (enum play_room)room);
}

/* Position, letter and refusal stand first in the line of a call. */
static void count_line(struct counts *counts, const char *line)
{
    const char *letter = strchr(line, ' ') + 1;
    unsigned long refusal = strtoul(letter + 1, NULL, 10);

    counts->calls++;
    if (refusal < REFUSALS)
        counts->refusals[refusal]++;
}

/* The first line and the last are not those of calls. */
static void count_output(struct counts *counts, struct play_result result)
{
    const char *line = (const char *)result.out, *end = line + result.length;

    counts->files++;
    if (result.length > 0 && *line == 'b') {
        counts->bad_files++;
        return;
    }
    for (line = (const char *)memchr(line, '\n', (size_t)(end - line)) + 1; *line != 'b';
        line = (const char *)memchr(line, '\n', (size_t)(end - line)) + 1)
        count_line(counts, line);
}

/* Returns whether each was reached. */
static bool print_counts(const struct counts *counts)
{
    bool all = counts->bad_files > 0;

    for (unsigned i = 0; i < REFUSALS; i++) {
        printf("refusal %u: %lu\n", i, counts->refusals[i]);
        all = all && counts->refusals[i] > 0;
    }
    printf("bad file: %lu\n", counts->bad_files);
    printf("host: %lu files, %lu calls compared, each played whole and over lent rows, 0 differences\n", counts->files,
        counts->calls);
    return all;
}

int main(int argc, char **argv)
{
    static uint8_t file[SECOND_GENERATED_FILE_BYTES];
    struct counts counts = { 0 };
    uint64_t seed = 1;
    unsigned long count = 2000;

    read_options("play_host", argc, argv, &seed, &count);
    play_start();
    for (unsigned long i = 0; i < count; i++) {
        uint64_t start = seed;
        size_t len = second_generate_evening(&seed, file);
        compare(file, len, start, i % ROOMS_EVERY == 0);
        count_output(&counts, play_expected());
    }
    if (!print_counts(&counts)) {
        fputs("host: a number above was never reached\n", stderr);
        return 1;
    }
    return 0;
}
