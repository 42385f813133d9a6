#include "../../second/generate/flow.h"
#include "../../second/generate/random.h"
#include "compare.h"
#include "runs.h"

static uint32_t draw_limit(uint64_t *seed)
{
    static const uint32_t limits[] = { 0, 4294967295u, 1, 5000, 100000 };
    uint64_t draw = second_draw(seed);

    return draw % 6 < 5 ? limits[draw % 6] : (uint32_t)(draw >> 32);
}

static uint64_t draw_figure(uint64_t *seed)
{
    static const uint64_t figures[] = { 0, 0, 1, 100000, 4294967295u, 127999999, 128000000, 255999999, 256000000,
        256000001, (uint64_t)1 << 63, UINT64_MAX, UINT64_MAX - 255999999 };
    uint64_t draw = second_draw(seed);

    return draw % 16 < 13 ? figures[draw % 16] : second_draw(seed) >> draw / 16 % 64;
}

/* In ranges or, if wild, of any figures; a port of 0 may be described, and one that is not may have a port. */
static struct frumxadda_way draw_way(uint64_t *seed, bool wild)
{
    uint64_t draw = second_draw(seed);
    struct frumxadda_way way = { .address = (uint32_t)second_draw(seed), .media = (uint32_t)draw_figure(seed) };

    way.rtcp = wild ? draw_figure(seed) : draw_figure(seed) % 8589934591u;
    way.port = draw % 3 == 0 ? 0 : wild ? (uint32_t)draw_figure(seed) : (uint32_t)(draw >> 8) % 65535;
    way.described = wild && draw >> 32 & 1 ? (uint32_t)draw_figure(seed) : (uint32_t)(draw >> 33 & 1);
    return way;
}

/* Kinds, statuses and classes those of the paper, or, if wild, any. */
static struct frumxadda_held draw_held(uint64_t *seed, bool wild)
{
    static const uint16_t classes[] = { 0, 2, 4, 6, 8, 9 };
    struct frumxadda_held held = { .completed = 1, .kept = classes[second_draw(seed) % 6] };

    held.count = wild && second_draw(seed) % 4 == 0 ? (uint32_t)draw_figure(seed) : second_draw(seed) % 9;
    for (unsigned i = 0; i < 8 && (wild || i < held.count); i++) {
        uint64_t draw = second_draw(seed);
        bool odd = wild && draw % 4 == 0;
        held.components[i] = (struct frumxadda_component) {
            .kind = (uint16_t)(odd ? draw >> 16 : 1 + (draw >> 16) % 6),
            .transport = (uint16_t)(odd ? draw >> 24 : 1 + (draw >> 24) % 2),
            .status = (uint16_t)(odd ? (draw >> 32) % 7 : (draw >> 32) % 5),
            .class_number = odd ? (uint16_t)(draw >> 40) : classes[(draw >> 40) % 6],
            .up = draw_way(seed, wild),
            .down = draw_way(seed, wild),
        };
    }
    return held;
}

void run_generated(uint64_t *seed, unsigned long count)
{
    static struct second_exchange made;
    static const struct sides fresh;
    struct second_call call = { .seed = second_draw(seed) };
    struct sides sides = fresh;

    for (unsigned long i = 0; i < count; i++) {
        second_generate_exchange(&call, &made);
        struct exchange exchange = { .offer = made.offer, .answer = made.answer, .offer_len = made.offer_len,
            .answer_len = made.answer_len };
        exchange.settings = (struct frumxadda_settings) { { draw_limit(seed), draw_limit(seed) },
            { draw_limit(seed), draw_limit(seed) }, { draw_limit(seed), draw_limit(seed) } };
        exchange.origin = made.origin && second_draw(seed) % 4 == 0 ? second_draw(seed) | 2 : made.origin;
        if (made.fresh)
            sides = fresh;
        if (second_draw(seed) % 16 == 0) {
            struct frumxadda_held held = draw_held(seed, false);
            set_sides(&sides, &held);
        }
        compare_exchange(&exchange, &sides, seed);
    }
}

void run_wild(uint64_t *seed, unsigned long count)
{
    for (unsigned long i = 0; i < count; i++) {
        struct frumxadda_held held = draw_held(seed, true);
        struct sides sides;
        set_sides(&sides, &held);
        compare_state(&sides, seed);
    }
}
