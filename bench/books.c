#include "books.h"

#include "../host/shared/call.h"
#include "../host/shared/rows.h"
#include "sections.h"

#include <stdio.h>
#include <string.h>

static struct second_ask ask_of(const struct book *book, enum second_letter letter, unsigned session, unsigned count)
{
    unsigned answer = letter == SECOND_ANSWER;

    return (struct second_ask) {
        .letter = letter, .session = session, .settings = { 100000, 90000, 5000, 4000 },
        .pool = { 4294967295u, 4294967295u }, .asked = { (1u << count) - 1, 9, 1000, 1000 },
        .text = book->texts[count][answer], .len = book->lens[count][answer], .room = STATEMENT_ROOM,
    };
}

struct second_ask make_ask(const struct book *book, enum second_letter letter, unsigned session)
{
    return ask_of(book, letter, session, book->proved[session].held.count);
}

static bool same_rows(const struct book *book)
{
    for (unsigned i = 0; i < BOOK_ROWS; i++) {
        struct frumxadda_row row;
        row_from_second(&book->second[i], &row);
        if (memcmp(&row, &book->proved[i], sizeof row) != 0)
            return false;
    }
    return true;
}

bool answered(struct book *book, const struct second_ask *ask, uint64_t refusal)
{
    uint8_t one[STATEMENT_ROOM] = { 0 }, other[STATEMENT_ROOM] = { 0 };
    struct frumxadda_reply proved = lent_call(book->proved, BOOK_ROWS, ask, one);
    struct second_reply second = second_play((struct second_book) { book->second, BOOK_ROWS }, ask, other);
    bool good = proved.refusal == refusal && second.refusal == refusal && proved.change.up == second.change_up
        && proved.change.down == second.change_down && proved.length == second.length && memcmp(one, other, sizeof one) == 0
        && same_rows(book);

    if (!good)
        printf("%s: call %u of session %u is not answered alike with %u\n", book->name, (unsigned)ask->letter,
            (unsigned)ask->session, (unsigned)refusal);
    return good;
}

void print_of(const struct book *book, const char *what, struct measured measured)
{
    char name[64];

    snprintf(name, sizeof name, "%s, %s", what, book->name);
    print_measured(name, measured);
}

/* Completes an exchange, and opens an offer where one is to be. */
static bool fill_session(struct book *book, unsigned session, unsigned count, bool open)
{
    static const enum second_letter letters[] = { SECOND_OFFER, SECOND_ANSWER, SECOND_OFFER };
    bool good = true;

    for (unsigned i = 0; i < (open ? 3u : 2u); i++) {
        struct second_ask ask = ask_of(book, letters[i], session, count);
        good = good && answered(book, &ask, 0);
    }
    return good;
}

static void write_texts(struct book *book)
{
    for (unsigned count = 1; count <= 8; count++)
        for (int answer = 0; answer < 2; answer++)
            book->lens[count][answer] = write_sections(count, answer, book->texts[count][answer]);
}

bool fill_book(struct book *book)
{
    bool good = true;

    book->name = "full book";
    book->quiet = 6;
    book->open = 7;
    write_texts(book);
    for (unsigned i = 0; i < BOOK_ROWS; i++)
        good = good && fill_session(book, i, 8, i % 2 == 1);
    return good;
}

bool fill_evening(struct book *book)
{
    bool good = true;

    book->name = "ordinary evening";
    book->quiet = 6;
    book->open = 11;
    write_texts(book);
    for (unsigned i = 0; i < BOOK_ROWS; i++)
        good = good && fill_session(book, i, 1 + (i + i / 4) % 2, i % 4 == 3);
    return good;
}
