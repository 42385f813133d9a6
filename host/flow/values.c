#include "../../second/generate/random.h"
#include "compare.h"
#include "runs.h"

#include <stdio.h>
#include <stdlib.h>
#include <string.h>

static const struct frumxadda_settings usual = { { 100000, 90000 }, { 5000, 4000 }, { 0, 0 } };

static void must(bool good, const char *what)
{
    if (good)
        return;
    printf("%s: both differ from the paper\n", what);
    exit(1);
}

/* One audio component; the offer requests this rate, the answer none. */
static void set_audio(struct derivation *derivation, struct second_media media[2][8], uint32_t requested, uint16_t offered,
    uint16_t answered)
{
    struct frumxadda_descriptions said = { .count = 1 };

    said.media[0] = (struct frumxadda_media) { .address = 0xc0000201, .requested = requested, .port = 40000, .kind = 1,
        .transport = 1, .direction = offered, .known = 1, .requestedgiven = 1 };
    set_texts(&derivation->offer, &said, media[0]);
    said.media[0] = (struct frumxadda_media) { .address = 0xc0000209, .port = 50000, .kind = 1, .transport = 1,
        .direction = answered, .known = 1 };
    set_texts(&derivation->answer, &said, media[1]);
}

/* Any 32 bits are a rate, and its twentieth is rounded up. */
static void run_rates(void)
{
    static const struct {
        uint32_t requested, rtcp;
    } rates[] = { { 0, 0 }, { 1, 1 }, { 20, 1 }, { 21, 2 }, { 64000, 3200 }, { 64001, 3201 }, { 2147483648u, 107374183 },
        { 4294967276u, 214748364 }, { 4294967280u, 214748364 }, { 4294967281u, 214748365 }, { 4294967295u, 214748365 } };
    struct derivation derivation = { .settings = usual };
    struct second_media media[2][8];
    struct sides after;

    for (size_t i = 0; i < sizeof rates / sizeof rates[0]; i++) {
        set_audio(&derivation, media, rates[i].requested, 1, 1);
        compare_derived(&derivation, &after);
        const struct frumxadda_component *component = &after.proved.components[0];
        must(component->down.media == rates[i].requested && component->down.rtcp == rates[i].rtcp
                && component->up.media == 100000 && component->up.rtcp == 5000, "a rate of any 32 bits");
    }
}

/* What was held before an exchange in which the handset alone sends: whether the component had both, and so keeps both. */
static const struct had {
    const char *name;
    uint32_t count;
    uint16_t kind, status;
    uint32_t up, down, port;
    bool both;
} hads[] = {
    { "a component that had both", 1, 1, 2, 1, 1, 40000, true },
    { "one that had both on hold", 1, 1, 3, 1, 1, 40000, true },
    { "one that had both at port 0", 1, 1, 2, 1, 1, 0, true },
    { "one that had up alone", 1, 1, 0, 1, 0, 40000, false },
    { "one that had down alone", 1, 1, 1, 0, 1, 40000, false },
    { "one that had ports, and none described", 1, 1, 2, 0, 0, 40000, false },
    { "one of another kind", 1, 2, 2, 1, 1, 40000, false },
    { "a removed one, described both ways", 1, 1, 4, 1, 1, 40000, false },
    { "one past the count", 0, 1, 2, 1, 1, 40000, false },
};

static void run_hads(uint64_t *seed)
{
    struct derivation derivation = { .settings = usual };
    struct second_media media[2][8];
    struct sides was, after;

    set_audio(&derivation, media, 64000, 2, 3);
    for (size_t i = 0; i < sizeof hads / sizeof hads[0]; i++) {
        const struct had *had = &hads[i];
        struct frumxadda_held held = { .completed = 1, .kept = 2, .count = had->count };
        held.components[0] = (struct frumxadda_component) { .kind = had->kind, .transport = 1, .status = had->status,
            .class_number = 2, .up = { .address = 1, .port = had->port, .described = had->up },
            .down = { .address = 2, .port = had->port, .described = had->down } };
        set_sides(&was, &held);
        compare_state(&was, seed);
        compare_before(&was, &derivation.before);
        compare_derived(&derivation, &after);
        const struct frumxadda_component *component = &after.proved.components[0];
        must(component->status == 0 && component->up.described == 1 && component->down.described == had->both
                && component->down.media == (had->both ? 64000u : 0) && component->class_number == (had->both ? 2 : 4)
                && component->down.address == 0xc0000201 && component->down.port == 40000, had->name);
    }
}

/* A described direction at port 0 has a destination, and its gate is open; RTCP's is at port 1. */
static void run_port_zero(void)
{
    struct frumxadda_held held = { .completed = 1, .count = 1 };
    struct sides sides;

    held.components[0] = (struct frumxadda_component) { .kind = 1, .transport = 1, .status = 0,
        .up = { .address = 5, .described = 1 }, .down = { .address = 6, .port = 65535 } };
    set_sides(&sides, &held);
    compare_gates(&sides, 0);
    compare_destinations(&sides, 0);
    struct frumxadda_destinations media = frumxadda_media_destinations(held.components[0]);
    struct frumxadda_destinations rtcp = frumxadda_rtcp_destinations(held.components[0]);
    must(media.up.address == 5 && media.up.port == 0 && media.down.address == 0 && media.down.port == 0
            && rtcp.up.address == 5 && rtcp.up.port == 1 && rtcp.down.address == 6 && rtcp.down.port == 65536,
        "a described direction at port 0");
    must(frumxadda_gates(held.components[0]).media_up == 1, "its gate");
}

static uint32_t draw_number(uint64_t *seed)
{
    static const uint32_t numbers[] = { 0, 1, 19, 20, 21, 64001, 4294967000u, 4294967281u, 2147483648u, 4294967295u };
    uint64_t draw = second_draw(seed);

    return draw % 12 < 10 ? numbers[draw % 12] : (uint32_t)(draw >> 32);
}

/* Kind, transport and direction as a text has them; any figure may stand beside a 0 that says that it is absent. */
static struct frumxadda_media draw_media(uint64_t *seed)
{
    uint64_t draw = second_draw(seed);

    return (struct frumxadda_media) {
        .address = (uint32_t)second_draw(seed), .requested = draw_number(seed), .rs = draw_number(seed),
        .rr = draw_number(seed), .port = draw % 4 ? (uint16_t)(draw >> 48) : draw % 8 ? 65535 : 0,
        .kind = (uint16_t)(1 + (draw >> 8) % 6), .transport = (uint16_t)(1 + (draw >> 12) % 2),
        .direction = (uint16_t)(1 + (draw >> 16) % 4), .known = 1, .requestedgiven = draw >> 20 & 1, .rsgiven = draw >> 21 & 1,
        .rrgiven = draw >> 22 & 1,
    };
}

/* An offer, and an answer that fits it. */
static void draw_texts(struct derivation *derivation, struct second_media media[2][8], uint64_t *seed)
{
    struct frumxadda_descriptions offer = { .count = (uint32_t)(second_draw(seed) % 9) }, answer = offer;

    for (unsigned i = 0; i < offer.count; i++) {
        offer.media[i] = draw_media(seed);
        answer.media[i] = draw_media(seed);
        answer.media[i].kind = offer.media[i].kind;
        answer.media[i].transport = offer.media[i].transport;
        if (offer.media[i].port == 0)
            answer.media[i].port = 0;
    }
    set_texts(&derivation->offer, &offer, media[0]);
    set_texts(&derivation->answer, &answer, media[1]);
}

/* Any figures; kinds mostly those of a text, the others mostly 0 and 1. */
static struct frumxadda_before draw_before(uint64_t *seed)
{
    static const uint16_t classes[] = { 0, 2, 4, 6, 8, 9, 7, 65535 };
    struct frumxadda_before before = { .kept = classes[second_draw(seed) % 8] };

    for (unsigned i = 0; i < 8; i++) {
        uint64_t draw = second_draw(seed);
        before.components[i] = (struct frumxadda_was) { (uint16_t)(draw % 8 ? 1 + (draw >> 3) % 6 : draw >> 16),
            (uint16_t)(draw >> 8 & 1), (uint16_t)(draw >> 9 & 1), (uint16_t)(draw >> 10 & 1) };
        if ((draw >> 12) % 16 == 0)
            before.components[i].live = before.components[i].up = before.components[i].down = (uint16_t)(draw >> 40);
    }
    return before;
}

void run_values(uint64_t *seed, unsigned long count)
{
    struct second_media media[2][8];
    struct sides after;

    run_rates();
    run_hads(seed);
    run_port_zero();
    for (unsigned long i = 0; i < count; i++) {
        struct derivation derivation = { .settings = { { draw_number(seed), draw_number(seed) },
            { draw_number(seed), draw_number(seed) }, { 0, 0 } }, .origin = second_draw(seed) % 3 };
        struct frumxadda_before before = draw_before(seed);
        draw_texts(&derivation, media, seed);
        set_befores(&derivation.before, &before);
        must(compare_fit(&derivation.offer, &derivation.answer) == 0, "a fit");
        compare_derived(&derivation, &after);
        if (i % 8 == 0)
            compare_state(&after, seed);
    }
}
