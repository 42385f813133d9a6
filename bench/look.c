#include "look.h"

#include "../host/shared/call.h"
#include "measure.h"

#include <stdio.h>
#include <string.h>

/*
 * Timed: the look at all 16 rows that comes first in every call, by a cancel that is refused (12) right after it; it changes
 * nothing, so that nothing is put back. Beside it a plain reading of the same bytes.
 */

enum { TIMES = 100 };

struct sample {
    struct book *book;
    struct second_ask ask;
};

static uint64_t look_proved(void *of, unsigned long times)
{
    struct sample *sample = of;
    uint64_t sum = 0;

    for (unsigned long i = 0; i < times; i++)
        sum += lent_call(sample->book->proved, BOOK_ROWS, &sample->ask, NULL).refusal;
    return sum;
}

static uint64_t look_second(void *of, unsigned long times)
{
    struct sample *sample = of;
    uint64_t sum = 0;

    for (unsigned long i = 0; i < times; i++)
        sum += second_play((struct second_book) { sample->book->second, BOOK_ROWS }, &sample->ask, NULL).refusal;
    return sum;
}

static uint64_t word_at(const uint8_t *bytes)
{
    uint64_t word;

    memcpy(&word, bytes, sizeof word);
    return word;
}

/* Four words at a time, each into its own sum, so that none waits for the one before. */
static uint64_t read_words(const uint8_t *bytes, size_t len)
{
    uint64_t one = 0, two = 0, three = 0, four = 0;

    for (size_t i = 0; i < len; i += 4 * sizeof one) {
        one |= word_at(bytes + i);
        two |= word_at(bytes + i + 8);
        three |= word_at(bytes + i + 16);
        four |= word_at(bytes + i + 24);
    }
    return one | two | three | four;
}

static uint64_t read_all(const void *bytes, size_t len, unsigned long times)
{
    uint64_t sum = 0;

    for (unsigned long i = 0; i < times; i++) {
        __asm__ volatile("" : : "r"(bytes) : "memory");
        sum += read_words(bytes, len);
    }
    return sum;
}

static uint64_t plain_proved(void *of, unsigned long times)
{
    const struct book *book = ((struct sample *)of)->book;

    return read_all(book->proved, sizeof book->proved, times);
}

static uint64_t plain_second(void *of, unsigned long times)
{
    const struct book *book = ((struct sample *)of)->book;

    return read_all(book->second, sizeof book->second, times);
}

bool bench_look(struct book *book)
{
    static struct sample sample;

    sample.book = book;
    sample.ask = make_ask(book, SECOND_CANCEL, book->quiet);
    if (!answered(book, &sample.ask, 12))
        return false;
    struct measured look = measure(look_proved, look_second, &sample, TIMES);
    struct measured plain = measure(plain_proved, plain_second, &sample, TIMES);
    print_of(book, "the look", look);
    print_of(book, "plain reading", plain);
    printf("  the look, in plain readings of its bytes (%zu and %zu): %.2f and %.2f\n", sizeof book->proved,
        sizeof book->second, look.proved / plain.proved, look.second / plain.second);
    return true;
}
