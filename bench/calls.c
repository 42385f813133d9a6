#include "../host/shared/call.h"
#include "bench.h"
#include "books.h"
#include "look.h"
#include "measure.h"

/*
 * Timed: calls over a lent book of 16 rows, each on the same book: the row that a call may change is put back after it, and
 * what that takes is taken off.
 */

enum { TIMES = 100 };

struct sample {
    struct book *book;
    struct second_ask ask;
    uint8_t statement[STATEMENT_ROOM];
};

static uint64_t call_proved(void *of, unsigned long times)
{
    struct sample *sample = of;
    struct frumxadda_row *row = &sample->book->proved[sample->ask.session];
    const struct frumxadda_row was = *row;
    uint64_t sum = 0;

    for (unsigned long i = 0; i < times; i++) {
        sum += lent_call(sample->book->proved, BOOK_ROWS, &sample->ask, sample->statement).refusal;
        *row = was;
    }
    return sum;
}

static uint64_t call_second(void *of, unsigned long times)
{
    struct sample *sample = of;
    struct second_row *row = &sample->book->second[sample->ask.session];
    const struct second_row was = *row;
    uint64_t sum = 0;

    for (unsigned long i = 0; i < times; i++) {
        sum += second_play((struct second_book) { sample->book->second, BOOK_ROWS }, &sample->ask, sample->statement).refusal;
        *row = was;
    }
    return sum;
}

/* The row is put back as often as after a call, and no store of it may be left out. */
static uint64_t restore_proved(void *of, unsigned long times)
{
    struct sample *sample = of;
    struct frumxadda_row *row = &sample->book->proved[sample->ask.session];
    const struct frumxadda_row was = *row;

    for (unsigned long i = 0; i < times; i++) {
        *row = was;
        __asm__ volatile("" : : "r"(row) : "memory");
    }
    return row->held.count;
}

static uint64_t restore_second(void *of, unsigned long times)
{
    struct sample *sample = of;
    struct second_row *row = &sample->book->second[sample->ask.session];
    const struct second_row was = *row;

    for (unsigned long i = 0; i < times; i++) {
        *row = was;
        __asm__ volatile("" : : "r"(row) : "memory");
    }
    return row->count;
}

static const struct kind {
    const char *name;
    enum second_letter letter;
    bool open;
} kinds[] = {
    { "offer", SECOND_OFFER, false },
    { "answer", SECOND_ANSWER, true },
    { "cancel", SECOND_CANCEL, true },
    { "close", SECOND_CLOSE, false },
    { "bearer", SECOND_BEARER, false },
    { "statement", SECOND_STATEMENT, false },
};

static bool bench_kind(struct book *book, const struct kind *kind)
{
    static struct sample sample;
    unsigned session = kind->open ? book->open : book->quiet;
    const struct frumxadda_row row = book->proved[session];
    const struct second_row other = book->second[session];

    sample.book = book;
    sample.ask = make_ask(book, kind->letter, session);
    if (!answered(book, &sample.ask, 0))
        return false;
    book->proved[session] = row;
    book->second[session] = other;
    struct measured restore = measure(restore_proved, restore_second, &sample, TIMES);
    print_of(book, kind->name, without(measure(call_proved, call_second, &sample, TIMES), restore));
    return true;
}

static bool bench_book(struct book *book)
{
    bool good = bench_look(book);

    for (unsigned i = 0; good && i < sizeof kinds / sizeof kinds[0]; i++)
        good = bench_kind(book, &kinds[i]);
    return good;
}

bool bench_calls(void)
{
    static struct book full, evening;

    return fill_book(&full) && fill_evening(&evening) && bench_book(&full) && bench_book(&evening);
}
