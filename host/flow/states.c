#include "../../second/generate/random.h"
#include "check.h"

/* What both answer about a state, without texts. */

void compare_before(const struct sides *sides, struct befores *before)
{
    struct figures proved, second;

    before->proved = frumxadda_before(sides->proved);
    before->second = second_before(&sides->second);
    proved_before(&before->proved, &proved);
    second_before_figures(&before->second, &second);
    check("what deriving reads", sides, NULL, &proved, &second);
}

void compare_gates(const struct sides *sides, unsigned slot)
{
    static const char labels[] = "media up, down, RTCP up, down";
    struct frumxadda_open_gates one = frumxadda_gates(sides->proved.components[slot]);
    struct second_gates other = second_gates(&sides->second.components[slot]);
    struct figures input = { "component", 1, { slot + 1 } };
    struct figures proved = { labels, 4, { one.media_up, one.media_down, one.rtcp_up, one.rtcp_down } };
    struct figures second = { labels, 4, { other.media_up, other.media_down, other.rtcp_up, other.rtcp_down } };

    check("the gates", sides, &input, &proved, &second);
}

void compare_destinations(const struct sides *sides, unsigned slot)
{
    static const char labels[] = "address and port: media up, down, RTCP up, down";
    const struct second_component *component = &sides->second.components[slot];
    struct frumxadda_destinations media = frumxadda_media_destinations(sides->proved.components[slot]);
    struct frumxadda_destinations rtcp = frumxadda_rtcp_destinations(sides->proved.components[slot]);
    struct second_destinations other = second_media_destinations(component), another = second_rtcp_destinations(component);
    struct figures input = { "component", 1, { slot + 1 } };
    struct figures proved = { labels, 8, { media.up.address, media.up.port, media.down.address, media.down.port,
        rtcp.up.address, rtcp.up.port, rtcp.down.address, rtcp.down.port } };
    struct figures second = { labels, 8, { other.up.address, other.up.port, other.down.address, other.down.port,
        another.up.address, another.up.port, another.down.address, another.down.port } };

    check("the destinations", sides, &input, &proved, &second);
}

/* Returns what is authorised. */
static struct second_authorised compare_bearer(const struct sides *sides, uint64_t set, uint64_t class_number,
    uint64_t up, uint64_t down)
{
    static const char labels[] = "refusal class up down";
    struct frumxadda_asked asked = { set, class_number, up, down };
    struct second_asked second_asked = { set, class_number, up, down };
    struct frumxadda_authorised one = frumxadda_authorise(sides->proved, asked);
    struct second_authorised other = second_authorise(&sides->second, &second_asked);
    struct figures input = { "set class up down", 4, { set, class_number, up, down } };
    struct figures proved = { labels, 4, { one.refusal, one.class_number, one.up, one.down } };
    struct figures second = { labels, 4, { other.refusal, other.class_number, other.up, other.down } };

    check("the bearer", sides, &input, &proved, &second);
    seen[one.refusal]++;
    return other;
}

/* At what is authorised over the set, one beyond it in each figure, and far from it. */
static void compare_set(const struct sides *sides, uint64_t set)
{
    struct second_authorised top = compare_bearer(sides, set, 9, 0, 0);

    compare_bearer(sides, set, top.class_number, top.up, top.down);
    compare_bearer(sides, set, top.class_number, top.up + 1, top.down);
    compare_bearer(sides, set, top.class_number, top.up, top.down + 1);
    compare_bearer(sides, set, top.class_number - 1, top.up, top.down);
    compare_bearer(sides, set, UINT64_MAX, UINT64_MAX, 0);
}

static uint64_t removed_set(const struct second_state *state)
{
    uint64_t set = 0;

    for (unsigned i = 0; i < 8 && i < state->count; i++)
        set |= (uint64_t)(state->components[i].status == 4) << i;
    return set;
}

void compare_bearers(const struct sides *sides, uint64_t *seed)
{
    uint64_t count = sides->second.count < 8 ? sides->second.count : 8, all = ((uint64_t)1 << count) - 1;
    uint64_t sets[] = { all, all & second_draw(seed), all & second_draw(seed) & second_draw(seed),
        (uint64_t)1 << second_draw(seed) % 8, removed_set(&sides->second), all + 1, all | (uint64_t)1 << 63,
        second_draw(seed) };

    compare_bearer(sides, 0, 9, 0, 0);
    for (unsigned i = 0; i < sizeof sets / sizeof sets[0]; i++)
        compare_set(sides, sets[i]);
}

void compare_state(const struct sides *sides, uint64_t *seed)
{
    struct befores ignored;

    compare_before(sides, &ignored);
    for (unsigned slot = 0; slot < 8; slot++) {
        compare_gates(sides, slot);
        compare_destinations(sides, slot);
    }
    compare_bearers(sides, seed);
}
