#include "check.h"
#include "known.h"
#include "offsets.h"

#include <stdio.h>
#include <stdlib.h>
#include <string.h>

/* Every struct that the library takes or gives makes its way through it, with known figures. */

enum { ROWS = 2, SESSION = 1 };

#define BAD "v=0\nc=IN IP4 192.0.2.1\nm=audio 40000 RTP/AVP 0\nb=AS:4294968\n"
#define HELD \
    "v=0\na=inactive\nc=IN IP4 192.0.2.1\nm=control 40000 RTP/AVP 0\nm=audio 40002 RTP/AVP 0\nm=application 40004 udp x\n" \
    "m=video 40006 RTP/AVP 0\nm=data 0 udp x\n"
#define NONE "v=0\n"
#define TEXT(text) (const uint8_t *)(text), strlen(text)

static struct frumxadda_row rows[ROWS], known[ROWS];

static void expect_media(const char *what, const struct frumxadda_media *given)
{
    for (unsigned i = 0; i < 8; i++)
        expect(&layout_media, what, &given[i], &known_said.media[i]);
}

static void expect_held(const char *what, const struct frumxadda_held *given, const struct frumxadda_held *held)
{
    expect(&layout_held, what, given, held);
    for (unsigned i = 0; i < 8; i++)
        expect(&layout_component, what, &given->components[i], &held->components[i]);
}

/* All rows as they are known to be. */
static void expect_rows(const char *what)
{
    for (unsigned i = 0; i < ROWS; i++) {
        expect_held(what, &rows[i].held, &known[i].held);
        expect(&layout_open_offer, what, &rows[i].offer, &known[i].offer);
        expect(&layout_descriptions, what, &rows[i].offer.said, &known[i].offer.said);
        for (unsigned j = 0; j < 8; j++)
            expect(&layout_media, what, &rows[i].offer.said.media[j], &known[i].offer.said.media[j]);
    }
}

static void expect_reply(const char *what, struct frumxadda_reply given, struct frumxadda_reply reply)
{
    expect(&layout_reply, what, &given, &reply);
    expect_rows(what);
}

static void must(int good, const char *what)
{
    if (good)
        return;
    printf("%s\n", what);
    exit(1);
}

static uint16_t place_of(const char *text, const char *line)
{
    return (uint16_t)(strstr(text, line) - text);
}

static void read_texts(void)
{
    struct frumxadda_reading good = { .count = KNOWN_COMPONENTS }, bad = { .refusal = 7, .place = 4 };
    struct frumxadda_reading reading = frumxadda_read(TEXT(known_offer)), refused = frumxadda_read(TEXT(BAD));

    expect(&layout_reading, "a good text", &reading, &good);
    expect(&layout_reading, "a bad text", &refused, &bad);
    expect_media("a good text", reading.media);
    for (unsigned i = 0; i < KNOWN_COMPONENTS; i++) {
        const char *line = known_lines[i][0], *direction = known_lines[i][1];
        struct frumxadda_spot spot = { .start = place_of(known_offer, line) };
        spot.end = (uint16_t)(spot.start + strlen(line));
        if (direction) {
            spot.from = place_of(known_offer, direction);
            spot.to = (uint16_t)(spot.from + strlen(direction));
        }
        expect(&layout_spot, "a good text", &reading.spots[i], &spot);
    }
    must(frumxadda_text(TEXT(known_offer)) == (uint64_t)KNOWN_COMPONENTS << 32, "a good text, packed");
    must(frumxadda_text(TEXT(BAD)) == 7 + 256 * 4, "a bad text, packed");
}

static struct frumxadda_descriptions descriptions_of(const char *text)
{
    struct frumxadda_reading reading = frumxadda_read(TEXT(text));
    struct frumxadda_descriptions descriptions = { .count = reading.count };

    memcpy(descriptions.media, reading.media, sizeof descriptions.media);
    return descriptions;
}

static void expect_before(const char *what, struct frumxadda_before given, const struct frumxadda_before *before)
{
    expect(&layout_before, what, &given, before);
    for (unsigned i = 0; i < 8; i++)
        expect(&layout_was, what, &given.components[i], &before->components[i]);
}

static void derive_components(void)
{
    static const struct frumxadda_held fresh;
    static const struct frumxadda_before none;
    struct frumxadda_descriptions offer = descriptions_of(known_offer), answer = descriptions_of(known_answer);
    struct frumxadda_held held = frumxadda_derive(known_settings, 0, frumxadda_before(fresh), offer, answer);
    struct frumxadda_misfit fits = frumxadda_fit(offer, answer), differs = { .refusal = 15, .place = 3 }, same = { .refusal = 0 };

    expect(&layout_descriptions, "an offer", &offer, &known_said);
    expect_before("before anything", frumxadda_before(fresh), &none);
    expect_held("deriving", &held, &known_held);
    expect_before("before the next", frumxadda_before(held), &known_before);
    expect(&layout_misfit, "an answer that fits", &fits, &same);
    answer.media[2].kind = 4;
    fits = frumxadda_fit(offer, answer);
    expect(&layout_misfit, "an answer that does not", &fits, &differs);
}

/* Each field of what was before is read: a figure of component 1 or 2 changed shows in what is derived. */
static void derive_after(void)
{
    struct frumxadda_descriptions offer = descriptions_of(known_offer), answer = descriptions_of(known_answer);
    struct frumxadda_before before = known_before;
    struct frumxadda_held held = frumxadda_derive(known_settings, 0, before, offer, answer);

    expect_held("the same again", &held, &known_held);
    before.components[0].down = 1;
    held = frumxadda_derive(known_settings, 0, before, offer, answer);
    must(held.components[0].down.described == 1 && held.components[0].down.media == 64000, "control that had both");
    before.components[0].kind = 3;
    held = frumxadda_derive(known_settings, 0, before, offer, answer);
    must(held.components[0].down.described == 0, "application that had both");
    before = known_before;
    before.kept = 9;
    before.components[7] = (struct frumxadda_was) { .kind = 1, .live = 1 };
    held = frumxadda_derive(known_settings, 0, before, offer, answer);
    must(held.kept == 9 && held.components[1].class_number == 9, "audio that is gone");
    before.components[7].live = 0;
    held = frumxadda_derive(known_settings, 0, before, offer, answer);
    must(held.kept == 2, "audio that was not live");
}

static void find_destinations(void)
{
    for (unsigned i = 0; i < KNOWN_COMPONENTS; i++) {
        struct frumxadda_destinations media = frumxadda_media_destinations(known_held.components[i]);
        struct frumxadda_destinations rtcp = frumxadda_rtcp_destinations(known_held.components[i]);
        expect(&layout_destinations, "destinations of media", &media, &known_media[i]);
        expect(&layout_destinations, "destinations of RTCP", &rtcp, &known_rtcp[i]);
    }
}

static void open_gates(void)
{
    static const struct frumxadda_open_gates gates[KNOWN_COMPONENTS] = {
        { .media_up = 1, .rtcp_up = 1, .rtcp_down = 1 }, { .media_down = 1, .rtcp_up = 1, .rtcp_down = 1 },
        { .media_up = 1, .media_down = 1 }, { .media_up = 0 }, { .media_up = 0 } };

    for (unsigned i = 0; i < KNOWN_COMPONENTS; i++) {
        struct frumxadda_open_gates given = frumxadda_gates(known_held.components[i]);
        expect(&layout_open_gates, "gates", &given, &gates[i]);
    }
}

static void authorise_bearers(void)
{
    struct frumxadda_authorised good = { .refusal = 0, .class_number = 2, .up = 40203, .down = 89201 }, bad = good;
    struct frumxadda_asked asked = { .set = 3, .class_number = 2, .up = 40203, .down = 89201 };
    struct frumxadda_authorised given = frumxadda_authorise(known_held, asked);

    expect(&layout_authorised, "a bearer", &given, &good);
    bad.refusal = 17;
    asked.down++;
    given = frumxadda_authorise(known_held, asked);
    expect(&layout_authorised, "a bearer beyond", &given, &bad);
}

static void decide(const char *offer, const char *answer, uint64_t component, struct frumxadda_decision decision)
{
    struct frumxadda_decision given = frumxadda_deciding_line(TEXT(offer), TEXT(answer), component);

    expect(&layout_decision, "the deciding line", &given, &decision);
}

static void decide_lines(void)
{
    uint64_t received = place_of(known_answer, "a=recvonly"), inactive = place_of(known_offer, "a=inactive");

    decide(known_offer, known_answer, 1, (struct frumxadda_decision) { .text = 2, .start = received, .end = received + 10 });
    decide(known_offer, known_answer, 4, (struct frumxadda_decision) { .text = 1, .start = inactive, .end = inactive + 10 });
    decide(HELD, known_answer, 1, (struct frumxadda_decision) { .text = 1, .start = 4, .end = 14 });
    decide(BAD, known_answer, 1, (struct frumxadda_decision) { .refusal = 7, .place = 4, .failed = 1, .text = 2 });
    decide(known_offer, BAD, 1, (struct frumxadda_decision) { .refusal = 7, .place = 4, .failed = 2, .text = 2 });
}

static struct frumxadda_reply answer_with(struct frumxadda_settings settings, const char *text)
{
    return frumxadda_answer(settings, rows, ROWS, SESSION, TEXT(text));
}

/* The network's offer in the other row, so that origin is seen at 1 too. */
static void make_offers(void)
{
    struct frumxadda_reply good = { .refusal = 0 };

    known[SESSION].offer = (struct frumxadda_open_offer) { .present = 1, .origin = 0, .said = known_said };
    expect_reply("an offer", frumxadda_offer(rows, ROWS, SESSION, 0, TEXT(known_offer)), good);
    known[0].offer = (struct frumxadda_open_offer) { .present = 1, .origin = 1 };
    expect_reply("the network's offer", frumxadda_offer(rows, ROWS, 0, 1, TEXT(NONE)), good);
    known[0].offer = (struct frumxadda_open_offer) { .present = 0 };
    expect_reply("a cancel", frumxadda_cancel(rows, ROWS, 0), good);
    expect_reply("a bad answer", answer_with(known_settings, BAD), (struct frumxadda_reply) { .refusal = 7, .place = 4 });
}

static void make_answers(void)
{
    struct frumxadda_settings up = known_settings, down = known_settings;
    struct frumxadda_reply full = { .refusal = 16 }, good = { .change = { .up = 245208, .down = 273209 } };

    up.pool.up--;
    down.pool.down--;
    expect_reply("a pool too small up", answer_with(up, known_answer), full);
    expect_reply("a pool too small down", answer_with(down, known_answer), full);
    known[SESSION] = (struct frumxadda_row) { .held = known_held };
    expect_reply("an answer", answer_with(known_settings, known_answer), good);
}

static void ask_book(void)
{
    struct frumxadda_asked asked = { .set = 3, .class_number = 2, .up = 40203, .down = 89201 };
    struct frumxadda_reply reply = { .class_number = 2, .granted = { .up = 40203, .down = 89201 } };
    struct frumxadda_reply stated = { .length = strlen(known_statement) };
    uint8_t statement[512];

    expect_reply("a bearer", frumxadda_bearer(rows, ROWS, SESSION, asked), reply);
    reply.refusal = 17;
    asked.up++;
    expect_reply("a bearer beyond", frumxadda_bearer(rows, ROWS, SESSION, asked), reply);
    expect_reply("a statement", frumxadda_statement(rows, ROWS, SESSION, statement, sizeof statement), stated);
    must(memcmp(statement, known_statement, strlen(known_statement)) == 0, "the statement's text");
    known[SESSION] = known[0];
    expect_reply("a close", frumxadda_close(rows, ROWS, SESSION),
        (struct frumxadda_reply) { .change = { .up = -245208, .down = -273209 } });
}

int main(void)
{
    read_texts();
    derive_components();
    derive_after();
    find_destinations();
    open_gates();
    authorise_bearers();
    decide_lines();
    make_offers();
    make_answers();
    ask_book();
    expect_all_told_apart();
    return 0;
}
