#include "evening.h"

#include "book.h"
#include "draw.h"
#include "malform.h"
#include "write_calls.h"

#include <string.h>

/* With these a file of 250 calls, whatever zeros its numbers have, stays within its bytes. */
enum { EXCHANGES = 28, STRAYS = 8, ALL_TEXTS_BYTES = 30000, CALLS = 250 };

/* Two texts of the file; exchanges of one call follow each other, and have its number. */
struct exchange {
    unsigned call, origin, offer, answer;
};

/* A file in the making, what its texts say, and the book as its calls leave it. */
struct maker {
    uint64_t *seed;
    struct second_calls file;
    struct second_text said[SECOND_FILE_TEXTS];
    uint8_t bytes[SECOND_GENERATED_FILE_BYTES];
    size_t len; /* of the texts in bytes */
    struct exchange exchanges[EXCHANGES];
    unsigned exchange_count;
    unsigned sessions;
    unsigned offered[SECOND_BOOK_ROWS]; /* the exchange of the last offer in each session */
    struct second_row rows[SECOND_BOOK_ROWS];
    struct second_rates most; /* that was booked */
};

static struct second_book book_of(struct maker *maker)
{
    return (struct second_book) { maker->rows, SECOND_BOOK_ROWS };
}

static bool text_fits(const struct maker *maker, size_t len)
{
    return maker->file.text_count < SECOND_FILE_TEXTS && maker->len + len <= ALL_TEXTS_BYTES;
}

/* Returns its number. */
static unsigned add_text(struct maker *maker, const uint8_t *text, size_t len)
{
    unsigned number = maker->file.text_count++;
    uint8_t *copy = maker->bytes + maker->len;

    memcpy(copy, text, len);
    maker->len += len;
    maker->file.texts[number] = (struct second_file_text) { copy, len };
    second_read_text(copy, len, &maker->said[number]);
    return number;
}

static void make_exchanges(struct maker *maker, unsigned count)
{
    struct second_call call = { .modest = !one_in(maker->seed, 4) };
    struct second_exchange made;
    unsigned number = 0;

    call.seed = second_draw(maker->seed);
    for (unsigned i = 0; i < count; i++) {
        second_generate_exchange(&call, &made);
        number += made.fresh;
        if (maker->file.text_count + 2 > SECOND_FILE_TEXTS || !text_fits(maker, made.offer_len + made.answer_len))
            return;
        unsigned offer = add_text(maker, made.offer, made.offer_len);
        unsigned answer = add_text(maker, made.answer, made.answer_len);
        maker->exchanges[maker->exchange_count++] = (struct exchange) { number, made.origin, offer, answer };
    }
}

static void make_strays(struct maker *maker, unsigned count)
{
    uint8_t text[SECOND_GENERATED_BYTES];

    while (count-- > 0) {
        size_t len = second_generate_text(maker->seed, text, sizeof text);
        if (text_fits(maker, len))
            add_text(maker, text, len);
    }
}

static bool offer_suits(const struct maker *maker, unsigned exchange, unsigned session)
{
    const struct second_text *offer = &maker->said[maker->exchanges[exchange].offer];
    const struct second_row *row = &maker->rows[session];
    bool same_call = maker->exchanges[exchange].call == maker->exchanges[maker->offered[session]].call;

    return offer->refusal == 0 && offer->count >= row->count && (!row->completed || same_call);
}

/* One whose offer the session can take, a re-offer where it holds a call; else any. */
static unsigned draw_exchange(struct maker *maker, unsigned session, bool *suits)
{
    unsigned first = below(maker->seed, maker->exchange_count);

    for (unsigned i = 0; i < maker->exchange_count; i++) {
        unsigned exchange = (first + i) % maker->exchange_count;
        *suits = offer_suits(maker, exchange, session);
        if (*suits)
            return exchange;
    }
    return first;
}

static void draw_offer(struct maker *maker, unsigned session, struct second_call_line *line)
{
    static const uint32_t unknown[] = { 2, 3, 255, 256, 65536, 4294967295u };
    uint64_t *seed = maker->seed;
    bool suits;
    unsigned exchange = draw_exchange(maker, session, &suits);

    if (!suits && one_in(seed, 2)) {
        line->letter = SECOND_CLOSE;
        return;
    }
    if (one_in(seed, 8))
        exchange = below(seed, maker->exchange_count);
    if (!maker->rows[session].present)
        maker->offered[session] = exchange;
    line->numbers[1] = one_in(seed, 40) ? PICK(seed, unknown) : maker->exchanges[exchange].origin;
    line->numbers[2] = one_in(seed, 16) ? below(seed, maker->file.text_count) : maker->exchanges[exchange].offer;
}

static bool answer_fits(const struct maker *maker, const struct second_row *row, unsigned text)
{
    struct second_media media[8];

    return maker->said[text].refusal == 0
        && second_fit(second_offered(row, media), second_sections(&maker->said[text])).refusal == 0;
}

/* The answer made for the offer, or from any other exchange one that fits, or any text. */
static uint32_t draw_answer(struct maker *maker, unsigned session)
{
    uint32_t made = maker->exchanges[maker->offered[session]].answer;
    uint32_t texts = maker->file.text_count, first = below(maker->seed, texts);

    if (one_in(maker->seed, 12))
        return first;
    if (!one_in(maker->seed, 4) && answer_fits(maker, &maker->rows[session], made))
        return made;
    for (uint32_t i = 0; i < texts; i++)
        if (answer_fits(maker, &maker->rows[session], (first + i) % texts))
            return (first + i) % texts;
    return made;
}

static uint32_t number_of(uint64_t value)
{
    return value < UINT32_MAX ? (uint32_t)value : UINT32_MAX;
}

static void draw_bearer(struct maker *maker, unsigned session, struct second_call_line *line)
{
    struct second_asked asked = second_draw_asked(maker->seed, &maker->rows[session]);

    line->numbers[1] = number_of(asked.set);
    line->numbers[2] = number_of(asked.class_number);
    line->numbers[3] = number_of(asked.up);
    line->numbers[4] = number_of(asked.down);
}

/* A call of some session, mostly one that fits its row. */
static struct second_call_line draw_call(struct maker *maker)
{
    static const uint32_t unknown[] = { 16, 17, 32, 255, 256, 65536, 4294967295u };
    unsigned session = below(maker->seed, maker->sessions);
    struct second_call_line line = { .numbers = { session } };

    do
        line.letter = second_draw_letter(maker->seed, &maker->rows[session]);
    while (line.letter == SECOND_STATEMENT);
    if (line.letter == SECOND_OFFER)
        draw_offer(maker, session, &line);
    else if (line.letter == SECOND_ANSWER)
        line.numbers[1] = draw_answer(maker, session);
    else if (line.letter == SECOND_BEARER)
        draw_bearer(maker, session, &line);
    if (one_in(maker->seed, 60))
        line.numbers[0] = PICK(maker->seed, unknown);
    return line;
}

static void play_call(struct maker *maker, const struct second_call_line *line)
{
    struct second_ask ask = second_call_ask(&maker->file, line);

    second_play(book_of(maker), &ask, NULL);
    struct second_rates booked = second_booked_in_all(book_of(maker));
    maker->most.up = booked.up > maker->most.up ? booked.up : maker->most.up;
    maker->most.down = booked.down > maker->most.down ? booked.down : maker->most.down;
}

static void make_calls(struct maker *maker, unsigned count)
{
    while (maker->file.call_count < count) {
        struct second_call_line line = draw_call(maker);
        maker->file.calls[maker->file.call_count++] = line;
        play_call(maker, &line);
    }
}

/* Makes some calls, then starts anew with a pool that they just fill, or that one of them is just above. */
static void fit_pool(struct maker *maker, unsigned count)
{
    unsigned draw = below(maker->seed, 4);

    maker->file.pool = (struct second_pool) { UINT32_MAX, UINT32_MAX };
    make_calls(maker, count);
    maker->file.pool.up = (uint32_t)maker->most.up - (draw == 1 && maker->most.up > 0);
    maker->file.pool.down = (uint32_t)maker->most.down - (draw == 2 && maker->most.down > 0);
    memset(maker->rows, 0, sizeof maker->rows);
    for (uint32_t i = 0; i < maker->file.call_count; i++)
        play_call(maker, &maker->file.calls[i]);
}

static void make_file(struct maker *maker)
{
    uint64_t *seed = maker->seed;
    unsigned calls = one_in(seed, 20) ? below(seed, 6) : 40 + below(seed, CALLS - 40 + 1);

    maker->file.settings = second_draw_settings(seed);
    maker->file.pool = second_draw_pool(seed);
    maker->sessions = 1 + below(seed, SECOND_BOOK_ROWS);
    make_strays(maker, below(seed, STRAYS));
    make_exchanges(maker, one_in(seed, 40) ? 0 : 1 + below(seed, EXCHANGES));
    if (one_in(seed, 8))
        make_strays(maker, SECOND_FILE_TEXTS);
    if (maker->exchange_count == 0)
        return;
    if (!one_in(seed, 4))
        fit_pool(maker, calls < 20 ? calls : 20 + below(seed, calls - 19));
    make_calls(maker, calls);
}

/* Makes the last text so long that the file has just the bytes that it may have, or some more. */
static size_t stretch(struct maker *maker, uint8_t *out)
{
    static const unsigned more[] = { 0, 0, 0, 1, 1, 2, 800 };
    size_t target = SECOND_FILE_BYTES + PICK(maker->seed, more);

    if (maker->file.text_count < SECOND_FILE_TEXTS)
        maker->file.text_count++;
    struct second_file_text *last = &maker->file.texts[maker->file.text_count - 1];
    *last = (struct second_file_text) { maker->bytes, 0 };
    /* Its length mostly has five digits then, which are four more. */
    last->len = target - 4 - second_write_calls(&maker->file, 0, out, SECOND_GENERATED_FILE_BYTES);
    return second_write_calls(&maker->file, 0, out, SECOND_GENERATED_FILE_BYTES);
}

size_t second_generate_evening(uint64_t *seed, uint8_t out[SECOND_GENERATED_FILE_BYTES])
{
    struct maker maker = { .seed = seed };

    make_file(&maker);
    uint64_t zeros = one_in(seed, 4) ? second_draw(seed) & second_draw(seed) & second_draw(seed) : 0;
    size_t len = one_in(seed, 24) ? stretch(&maker, out)
                                  : second_write_calls(&maker.file, zeros, out, SECOND_GENERATED_FILE_BYTES);
    if (one_in(seed, 8))
        len = second_malform(seed, out, len, SECOND_GENERATED_FILE_BYTES);
    return len;
}
