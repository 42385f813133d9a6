#include "book.h"

#include "draw.h"
#include "write_text.h"

#include <string.h>

enum { ROOM_TOP = 600 };

static uint32_t draw_default(uint64_t *seed)
{
    static const uint32_t figures[] = { 0, 1, 5000, 100000, 100000, 5000, 64000 };

    if (one_in(seed, 20))
        return 4294967295u;
    return one_in(seed, 3) ? below(seed, 200000) : PICK(seed, figures);
}

static uint32_t draw_pool(uint64_t *seed)
{
    static const uint32_t figures[] = { 0, 105000, 1000000, 10000000, 100000000, 4294967295u };

    return one_in(seed, 4) ? (uint32_t)second_draw(seed) >> below(seed, 16) : one_in(seed, 2) ? 4294967295u
                                                                                             : PICK(seed, figures);
}

struct second_settings second_draw_settings(uint64_t *seed)
{
    return (struct second_settings) { draw_default(seed), draw_default(seed), draw_default(seed), draw_default(seed) };
}

struct second_pool second_draw_pool(uint64_t *seed)
{
    return (struct second_pool) { draw_pool(seed), draw_pool(seed) };
}

void second_start_evening(struct second_evening *evening)
{
    uint64_t *seed = &evening->seed;

    evening->rows = 1 + below(seed, SECOND_BOOK_ROWS);
    evening->settings = second_draw_settings(seed);
    evening->pool = second_draw_pool(seed);
    memset(evening->talks, 0, sizeof evening->talks);
    for (unsigned i = 0; i < SECOND_BOOK_ROWS; i++)
        evening->talks[i].call = (struct second_call) { .seed = second_draw(seed), .modest = !one_in(seed, 4) };
}

/* Out of 100 calls, how many of each letter while no offer is open, and while one is. */
enum second_letter second_draw_letter(uint64_t *seed, const struct second_row *row)
{
    static const unsigned char shares[2][SECOND_LETTERS] = { { 50, 5, 4, 10, 19, 12 }, { 6, 56, 8, 6, 14, 10 } };
    const unsigned char *share = shares[row->present == 1];
    unsigned at = below(seed, 100), letter = 0;

    while (at >= share[letter])
        at -= share[letter++];
    return (enum second_letter)letter;
}

static void take_text(struct second_evening *evening, struct second_ask *ask, const uint8_t *text, size_t len)
{
    memcpy(evening->text, text, len);
    ask->len = len;
}

static void draw_offer(struct second_evening *evening, const struct second_row *row, struct second_ask *ask)
{
    static const uint64_t unknown[] = { 2, 255, 256, (uint64_t)1 << 32, ((uint64_t)1 << 32) + 1, UINT64_MAX };
    struct second_talk *talk = &evening->talks[ask->session];
    uint64_t *seed = &evening->seed;

    if (!row->present) {
        second_generate_exchange(&talk->call, &talk->exchange);
        talk->answered = false;
    }
    ask->origin = one_in(seed, 40) ? PICK(seed, unknown) : talk->exchange.origin;
    take_text(evening, ask, talk->exchange.offer, talk->exchange.offer_len);
}

/* An answer that fits the open offer of the row, with holds and removals. */
static size_t write_answer(uint64_t *seed, const struct second_row *row, uint8_t *out)
{
    struct second_style style = { .address = (int64_t)(second_draw(seed) & UINT32_MAX), .direction = below(seed, 5),
        .turn = below(seed, SECOND_SECTION_LINES) };
    unsigned count = row->offered < 8 ? (unsigned)row->offered : 8, rates = 1 + below(seed, 4);
    struct second_section sections[8];

    for (unsigned i = 0; i < count; i++)
        sections[i] = (struct second_section) {
            .kind = row->offer[i].kind, .transport = row->offer[i].transport,
            .port = row->offer[i].port == 0 || one_in(seed, 6) ? 0 : 1 + below(seed, 65534),
            .direction = below(seed, 5), .address = -1,
            .as = one_in(seed, 1 + rates) ? (int64_t)below(seed, 200) : -1,
            .tias = one_in(seed, rates) ? (int64_t)below(seed, 200000) : -1,
            .rs = one_in(seed, rates) ? (int64_t)below(seed, 6000) : -1,
            .rr = one_in(seed, rates) ? (int64_t)below(seed, 6000) : -1,
        };
    return second_write_text(&style, sections, count, out);
}

/* A pool that the new total just fills, or is just above. */
static void fit_pool(struct second_evening *evening, const struct second_row *rows, struct second_ask *ask)
{
    static const struct second_pool large = { 4294967295u, 4294967295u };
    struct second_row copy[SECOND_BOOK_ROWS];
    struct second_book book = { copy, evening->rows };

    memcpy(copy, rows, evening->rows * sizeof copy[0]);
    if (second_answer(book, &ask->settings, large, ask->session, evening->text, ask->len).refusal != 0)
        return;
    struct second_rates total = second_booked_in_all(book);
    unsigned draw = below(&evening->seed, 4);
    ask->pool.up = (uint32_t)total.up - (draw == 1 && total.up > 0);
    ask->pool.down = (uint32_t)total.down - (draw == 2 && total.down > 0);
}

static void draw_answer(struct second_evening *evening, const struct second_row *rows, struct second_ask *ask)
{
    const struct second_row *row = &rows[ask->session];
    struct second_talk *talk = &evening->talks[ask->session];
    uint64_t *seed = &evening->seed;

    if (one_in(seed, 16))
        ask->len = second_generate_text(seed, evening->text, sizeof evening->text);
    else if (talk->answered && row->present)
        ask->len = write_answer(seed, row, evening->text);
    else
        take_text(evening, ask, talk->exchange.answer, talk->exchange.answer_len);
    talk->answered = true;
    if (one_in(seed, 5))
        fit_pool(evening, rows, ask);
}

static uint64_t draw_set(uint64_t *seed, const struct second_row *row)
{
    uint64_t all = ((uint64_t)1 << row->count % 64) - 1, removed = 0;

    for (unsigned i = 0; i < row->count && i < 8; i++)
        removed |= (uint64_t)(row->components[i].status == 4) << i;
    switch (below(seed, 20)) {
    case 0:
        return 0;
    case 1:
        return all + 1;
    case 2:
        return all | (uint64_t)1 << below(seed, 64);
    case 3:
        return removed;
    case 4:
        return second_draw(seed);
    case 5:
    case 6:
        return (uint64_t)1 << below(seed, 8);
    default:
        return one_in(seed, 2) ? all : all & second_draw(seed);
    }
}

struct second_asked second_draw_asked(uint64_t *seed, const struct second_row *row)
{
    static const uint64_t classes[] = { 2, 4, 6, 8, 9 };
    static const uint64_t unknown[] = { 0, 1, 3, 5, 7, 10, 258, ((uint64_t)1 << 32) + 2, UINT64_MAX };
    struct second_asked asked = { .set = draw_set(seed, row), .class_number = 9 };
    struct second_authorised top = second_authorise_over(row->components, row->count, &asked);

    asked.class_number = top.class_number && !one_in(seed, 4) ? top.class_number : PICK(seed, classes);
    if (one_in(seed, 30))
        asked.class_number = PICK(seed, unknown);
    asked.up = one_in(seed, 8) ? second_draw(seed) >> below(seed, 64) : top.up + one_in(seed, 6);
    asked.down = one_in(seed, 8) ? second_draw(seed) >> below(seed, 64) : top.down + one_in(seed, 6);
    return asked;
}

/* Exactly the room that is needed, one byte less, or any. */
static void draw_room(uint64_t *seed, const struct second_row *row, struct second_ask *ask)
{
    struct second_row copy = *row;
    size_t length = (size_t)second_statement((struct second_book) { &copy, 1 }, 0, NULL, 0).length;
    unsigned draw = below(seed, 5);

    ask->room = draw < 2 ? length : draw == 2 && length > 0 ? length - 1 : below(seed, ROOM_TOP + 1);
}

void second_generate_ask(struct second_evening *evening, const struct second_row *rows, struct second_ask *ask)
{
    const uint64_t unknown[] = { evening->rows, evening->rows + 1, 16, 17, (uint64_t)1 << 32, UINT64_MAX };
    uint64_t *seed = &evening->seed;
    unsigned session = below(seed, evening->rows);
    const struct second_row *row = &rows[session];

    *ask = (struct second_ask) { .session = session, .settings = evening->settings, .pool = evening->pool };
    ask->text = evening->text;
    ask->letter = second_draw_letter(seed, row);
    if (!row->present && evening->talks[session].call.count < row->count && one_in(seed, 3))
        ask->letter = SECOND_CLOSE;
    if (ask->letter == SECOND_OFFER)
        draw_offer(evening, row, ask);
    else if (ask->letter == SECOND_ANSWER)
        draw_answer(evening, rows, ask);
    else if (ask->letter == SECOND_BEARER)
        ask->asked = second_draw_asked(seed, row);
    else if (ask->letter == SECOND_STATEMENT)
        draw_room(seed, row, ask);
    if (one_in(seed, 60))
        ask->session = PICK(seed, unknown);
}
