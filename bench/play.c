#include "../second/generate/write_calls.h"
#include "../second/generate/write_text.h"
#include "../second/server/evening.h"
#include "bench.h"
#include "measure.h"

#include <frumxadda.h>
#include <stdio.h>
#include <string.h>

/* Timed: playing a call file of 2,000 calls over a book of 16 rows, and printing its output; the figures are those of one call. */

enum { CALLS = 2000, COMPONENTS = 4, SETS = 15, EXCHANGES = 8 };

/* The evening being written: exchange i has the texts 2i and 2i + 1. */
static struct second_calls evening;
static uint8_t texts[2 * EXCHANGES][SECOND_WRITTEN_BYTES], file[SECOND_FILE_BYTES];

/* Sound, video, application and data, in turn held, one way and with the video removed. */
static void write_text(unsigned number)
{
    static const unsigned directions[EXCHANGES] = { 0, 1, 4, 2, 0, 3, 1, 4 };
    unsigned exchange = number / 2, answer = number % 2;
    struct second_section sections[COMPONENTS];
    struct second_style style = { .address = 0xc0000201u + number };

    for (unsigned i = 0; i < COMPONENTS; i++)
        sections[i] = (struct second_section) {
            .kind = i + 1, .transport = i < 2 ? 1 : 2,
            .port = i == 1 && exchange % 3 == 2 ? 0 : 40000 + 2 * i,
            .direction = answer ? directions[exchange] : 0, .address = -1,
            .as = i % 2 == answer ? (int64_t)(64 + 100 * i + exchange) : -1, .tias = -1,
            .rs = i == 0 ? 800 : -1, .rr = i < 2 ? 2400 : -1,
        };
    size_t len = second_write_text(&style, sections, COMPONENTS, texts[number]);
    evening.texts[number] = (struct second_file_text) { texts[number], len };
}

/* A letter that has fewer numbers leaves the last ones out; after the last call nothing is added. */
static void call(enum second_letter letter, uint32_t session, uint32_t second, uint32_t third)
{
    if (evening.call_count < CALLS)
        evening.calls[evening.call_count++] = (struct second_call_line) {
            letter, { session, second, third, 90000, 90000 } };
}

static void play_everyone(enum second_letter letter, unsigned round)
{
    for (unsigned session = 0; session < SECOND_BOOK_ROWS; session++) {
        unsigned exchange = (round + session) % EXCHANGES;
        if (letter == SECOND_OFFER)
            call(letter, session, session % 2, 2 * exchange);
        else if (letter == SECOND_ANSWER)
            call(letter, session, 2 * exchange + 1, 0);
        else
            call(letter, session, 1 + (round + session) % SETS, round % 2 ? 9 : 2);
    }
}

/* Offers of all sessions, some of them cancelled and made again, answers, bearers, and a few closes. */
static void play_round(unsigned round)
{
    play_everyone(SECOND_OFFER, round);
    for (unsigned session = round % 4; session < SECOND_BOOK_ROWS; session += 4) {
        call(SECOND_CANCEL, session, 0, 0);
        call(SECOND_OFFER, session, 0, 2 * ((round + session) % EXCHANGES));
    }
    play_everyone(SECOND_ANSWER, round);
    play_everyone(SECOND_BEARER, round);
    play_everyone(SECOND_BEARER, round + 1);
    for (unsigned session = round % 8; session < SECOND_BOOK_ROWS; session += 8)
        call(SECOND_CLOSE, session, 0, 0);
}

static size_t write_evening(void)
{
    evening.settings = (struct second_settings) { 100000, 100000, 5000, 5000 };
    evening.pool = (struct second_pool) { 100000000, 100000000 };
    while (evening.text_count < 2 * EXCHANGES)
        write_text(evening.text_count++);
    for (unsigned round = 0; evening.call_count < CALLS; round++)
        play_round(round);
    return second_write_calls(&evening, 0, file, sizeof file);
}

static uint8_t first[SECOND_EVENING_BYTES], then[SECOND_EVENING_BYTES];

/* So many calls, so that the file is played for each 2,000 of them. */
static uint64_t play_proved(void *len, unsigned long times)
{
    uint64_t sum = 0;

    for (unsigned long i = 0; i < times; i += CALLS)
        sum += frumxadda_play(file, *(size_t *)len, first, sizeof first);
    return sum;
}

static uint64_t play_second(void *len, unsigned long times)
{
    uint64_t sum = 0;

    for (unsigned long i = 0; i < times; i += CALLS)
        sum += second_evening_play(file, *(size_t *)len, then, sizeof then);
    return sum;
}

bool bench_play(void)
{
    size_t len = write_evening(), length = second_evening_play(file, len, then, sizeof then);

    if (frumxadda_play(file, len, first, sizeof first) != length || memcmp(first, then, length) != 0) {
        printf("play: the outputs differ\n");
        return false;
    }
    print_measured("play, a call of 2,000", measure(play_proved, play_second, &len, CALLS));
    return true;
}
