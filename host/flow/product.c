#include "../../second/generate/write_text.h"
#include "compare.h"
#include "runs.h"

#include <stdio.h>
#include <stdlib.h>

static const struct frumxadda_settings usual = { { 100000, 90000 }, { 5000, 4000 }, { 1000000, 1000000 } };

static const struct sides fresh;

/* What came before a component. */
enum previous { BOTH, UP, DOWN, REMOVED, OTHER_KIND, PREVIOUS, NOTHING = PREVIOUS };

/* One mix of a component, and the place it stands at. */
struct mix {
    unsigned number, place, kind;
    unsigned offer_live, answer_live, offer_direction, answer_direction, transport;
    unsigned rates; /* bits: a requested rate, RS, RR of the offer, then of the answer */
    enum previous previous;
};

enum { PORT_MIXES = 3, DIRECTION_MIXES = 16, RATE_MIXES = 64, TRANSPORTS = 2 };
enum { MIXES = PORT_MIXES * DIRECTION_MIXES * RATE_MIXES * TRANSPORTS };

/* Ports that fit: both live, the answer's 0, both 0. */
static struct mix make_mix(unsigned number, unsigned place, bool previous)
{
    struct mix mix = { .number = number, .place = place, .kind = 1 + (number + number / 8 + place) % 6 };

    mix.offer_live = number % PORT_MIXES != 2;
    mix.answer_live = number % PORT_MIXES == 0;
    number /= PORT_MIXES;
    mix.offer_direction = 1 + number % 4;
    mix.answer_direction = 1 + number / 4 % 4;
    number /= DIRECTION_MIXES;
    mix.rates = number % RATE_MIXES;
    number /= RATE_MIXES;
    mix.transport = 1 + number % TRANSPORTS;
    mix.previous = previous ? (enum previous)(number / TRANSPORTS) : NOTHING;
    return mix;
}

/*
 * Figures that differ by side and by place, RS and RR above and below a twentieth of the requested rate. By turns a section requests it by AS,
 * by TIAS and by both, and leaves out a line that says what holds without it: the direction of the session section, or sendrecv.
 */
static struct second_section mix_section(const struct mix *mix, bool answer, unsigned session)
{
    static const int64_t rtcp[4][2] = { { 2500, 900 }, { 900, 2500 }, { 9000, 4000 }, { 4000, 9001 } };
    const int64_t *pair = rtcp[(mix->number / 7 + mix->place) % 4];
    unsigned has = answer ? mix->rates >> 3 : mix->rates, live = answer ? mix->answer_live : mix->offer_live;
    unsigned direction = answer ? mix->answer_direction : mix->offer_direction, by = (mix->number / 3 + mix->place) % 3;
    int64_t kilobits = (answer ? 40 : 60) + (int64_t)mix->place;

    return (struct second_section) {
        .kind = mix->kind, .transport = mix->transport, .address = -1,
        .port = live ? (answer ? 200u : 100u) + 2 * mix->place : 0,
        .direction = direction == (session ? session : 1) && mix->number / 5 % 2 ? 0 : direction,
        .as = has & 1 && by != 1 ? kilobits : -1,
        .tias = has & 1 && by != 0 ? 1000 * kilobits + 1 + mix->number % 40 : -1,
        .rs = has & 2 ? pair[0] + (answer ? 0 : 20000) + mix->place : -1,
        .rr = has & 4 ? pair[1] + (answer ? 0 : 20000) + mix->place : -1,
    };
}

/* The exchange that came before has origin 0. */
static struct second_section previous_section(const struct mix *mix, bool answer)
{
    unsigned direction = mix->previous == UP ? 3 : mix->previous == DOWN ? 2 : 0;

    return (struct second_section) {
        .kind = mix->previous == OTHER_KIND ? mix->kind % 6 + 1 : mix->kind, .transport = mix->transport,
        .port = answer && mix->previous == REMOVED ? 0 : 300 + 2 * mix->place, .direction = answer ? direction : 0,
        .address = -1, .as = -1, .tias = -1, .rs = -1, .rr = -1,
    };
}

/* The directions of the session sections of offer and answer, each and none by turns. */
struct session {
    unsigned offer, answer;
};

static struct session next_session(void)
{
    return (struct session) { exchanges_compared % 5, exchanges_compared / 5 % 5 };
}

static uint64_t compare_sections(struct session session, const struct second_section *offer, unsigned offered,
    const struct second_section *answer, unsigned answered, uint64_t origin, struct sides *sides, uint64_t *seed)
{
    uint8_t texts[2][SECOND_WRITTEN_BYTES];
    struct second_style offer_style = { .address = 0x01010101, .direction = session.offer,
        .turn = (unsigned)exchanges_compared % SECOND_SECTION_LINES };
    struct second_style answer_style = { .address = 0x02020202, .direction = session.answer,
        .cr = exchanges_compared % 2 ? 0x55555555 : 0 };
    struct exchange exchange = { usual, origin, texts[0], texts[1], 0, 0 };

    exchange.offer_len = second_write_text(&offer_style, offer, offered, texts[0]);
    exchange.answer_len = second_write_text(&answer_style, answer, answered, texts[1]);
    return compare_exchange(&exchange, sides, seed);
}

static void compare_mixes(const struct mix *mixes, uint64_t origin, uint64_t *seed)
{
    struct second_section offer[8], answer[8];
    struct sides sides = fresh;

    for (unsigned i = 0; i < 8; i++) {
        offer[i] = previous_section(&mixes[i], false);
        answer[i] = previous_section(&mixes[i], true);
    }
    if (mixes[0].previous != NOTHING)
        compare_sections((struct session) { 0, 0 }, offer, 8, answer, 8, 0, &sides, seed);
    struct session session = next_session();
    for (unsigned i = 0; i < 8; i++) {
        offer[i] = mix_section(&mixes[i], false, session.offer);
        answer[i] = mix_section(&mixes[i], true, session.answer);
    }
    if (compare_sections(session, offer, 8, answer, 8, origin, &sides, seed) == 0)
        return;
    printf("a mix that fits is refused\n");
    exit(1);
}

/* Eight mixes to an exchange, far apart in the product. */
static void compare_product(uint64_t origin, bool previous, uint64_t *seed)
{
    unsigned eighth = (previous ? MIXES * PREVIOUS : MIXES) / 8;

    for (unsigned start = 0; start < eighth; start++) {
        struct mix mixes[8];
        for (unsigned place = 0; place < 8; place++)
            mixes[place] = make_mix(place * eighth + (start + 37 * place) % eighth, place, previous);
        compare_mixes(mixes, origin, seed);
    }
}

void run_product(uint64_t *seed)
{
    for (uint64_t origin = 0; origin < 2; origin++) {
        compare_product(origin, false, seed);
        compare_product(origin, true, seed);
    }
}

void run_misfits(uint64_t *seed)
{
    for (unsigned i = 0; i < 8 * 16 * 5; i++) {
        struct second_section offer[8], answer[8];
        unsigned place = i % 8, answered = 8;
        struct sides sides = fresh;
        struct session session = next_session();
        for (unsigned j = 0; j < 8; j++) {
            struct mix mix = make_mix(i / 8 % 16 * PORT_MIXES, j, false);
            offer[j] = mix_section(&mix, false, session.offer);
            answer[j] = mix_section(&mix, true, session.answer);
        }
        if (i / 128 == 0)
            offer[place].port = 0;
        else if (i / 128 == 1)
            answer[place].kind = answer[place].kind % 6 + 1;
        else if (i / 128 == 2)
            answer[place].transport = 3 - answer[place].transport;
        else if (i / 128 == 3)
            answered = place;
        if (compare_sections(session, offer, i / 128 == 4 ? place : 8, answer, answered, i / 8 % 2, &sides, seed) == 15)
            continue;
        printf("misfit %u is not 15\n", i + 1);
        exit(1);
    }
}
