#include "flow.h"

#include "draw.h"
#include "write_text.h"

_Static_assert((int)SECOND_WRITTEN_BYTES <= (int)SECOND_GENERATED_BYTES, "room");

/* For a direction, or for no line of it, that each media section draws by itself. */
enum { ANY_DIRECTION = 5 };

enum modifier { AS, TIAS, RS_OR_RR, MODIFIERS };

/* How the sections of one text are drawn. */
struct mood {
    unsigned session;   /* the session section's direction, 0 for no line */
    unsigned direction; /* of all media sections, 0 for no line */
    unsigned removed;   /* one in so many ports is 0 */
    unsigned rates;     /* one in so many rates is given */
    unsigned without;   /* the modifier that no section has, MODIFIERS if none is left out */
    bool modest;
};

/* A text as it is to be written. */
struct draft {
    unsigned session; /* the session section's direction, 0 for no line */
    struct second_section sections[8];
};

static void draw_media(struct second_call *call, unsigned i)
{
    uint64_t *seed = &call->seed;

    call->kinds[i] = one_in(seed, 2) ? 1 + below(seed, 2) : 1 + below(seed, 9);
    call->transports[i] = one_in(seed, 3) ? 2 : 1;
}

static void draw_call(struct second_call *call)
{
    uint64_t *seed = &call->seed;

    call->count = one_in(seed, 20) ? 0 : one_in(seed, 3) ? 1 + below(seed, 8) : 1 + below(seed, 3);
    for (unsigned i = 0; i < 8; i++)
        draw_media(call, i);
}

/* A re-offer adds media lines, rarely drops one, and puts other media in the place of some. */
static void change_call(struct second_call *call)
{
    uint64_t *seed = &call->seed;

    if (call->count < 8 && one_in(seed, 4))
        call->count++;
    if (call->count > 0 && one_in(seed, 20))
        call->count--;
    if (one_in(seed, 5))
        draw_media(call, below(seed, 8));
    if (one_in(seed, 8))
        call->transports[below(seed, 8)] = 1 + below(seed, 2);
}

/* Many texts give the direction for the whole call, in the session section and in no media section; half have no AS. */
static struct mood draw_mood(uint64_t *seed)
{
    struct mood mood = { .removed = one_in(seed, 6) ? 2 : 8, .rates = 1 + below(seed, 4) };

    mood.without = one_in(seed, 3) ? AS : below(seed, MODIFIERS + 1);
    mood.session = one_in(seed, 2) ? 1 + below(seed, 4) : 0;
    if (one_in(seed, 2))
        mood.direction = ANY_DIRECTION;
    else
        mood.direction = mood.session != 0 && one_in(seed, 2) ? 0 : below(seed, 5);
    return mood;
}

static unsigned draw_port(uint64_t *seed, unsigned transport)
{
    static const unsigned ports[] = { 1, 2, 40000, 65533, 65534 };

    if (one_in(seed, 2))
        return 1 + below(seed, 65534);
    return transport == 2 && one_in(seed, 4) ? 65535 : PICK(seed, ports);
}

static int64_t draw_rate(uint64_t *seed, const struct mood *mood, enum modifier modifier)
{
    static const unsigned modest[] = { 200, 200000, 6000 };
    static const uint32_t figures[] = { 0, 1, 64, 800, 2400, 3200, 64001, 300000, 4294967 };
    static const uint32_t tops[] = { 4294967295u, 4294967294u, 4294967, 128000000, 12800000, 5000 };

    if (modifier == mood->without || !one_in(seed, mood->rates))
        return -1;
    if (mood->modest)
        return below(seed, modest[modifier]);
    if (one_in(seed, 2))
        return PICK(seed, figures);
    if (modifier == AS)
        return below(seed, one_in(seed, 2) ? 4294968 : 10000);
    uint32_t any = (uint32_t)second_draw(seed);
    return one_in(seed, 2) ? PICK(seed, tops) : any >> below(seed, 24);
}

static void draw_draft(struct second_call *call, struct draft *draft)
{
    uint64_t *seed = &call->seed;
    struct mood mood = draw_mood(seed);

    mood.modest = call->modest;
    draft->session = mood.session;
    for (unsigned i = 0; i < 8; i++) {
        struct second_section *section = &draft->sections[i];
        bool other = call->kinds[i] > 5;
        section->kind = other ? 6 + below(seed, 4) : call->kinds[i];
        section->transport = call->transports[i];
        section->port = one_in(seed, mood.removed) ? 0 : draw_port(seed, section->transport);
        section->direction = mood.direction < ANY_DIRECTION && !one_in(seed, 12) ? mood.direction : below(seed, 5);
        section->address = one_in(seed, 3) ? (int64_t)(second_draw(seed) & UINT32_MAX) : -1;
        section->as = draw_rate(seed, &mood, AS);
        section->tias = draw_rate(seed, &mood, TIAS);
        section->rs = draw_rate(seed, &mood, RS_OR_RR);
        section->rr = draw_rate(seed, &mood, RS_OR_RR);
    }
}

static void break_fit(uint64_t *seed, struct second_section *sections, unsigned *count)
{
    struct second_section *section = &sections[below(seed, *count ? *count : 1)];

    switch (below(seed, 5)) {
    case 0:
        *count = below(seed, 9);
        break;
    case 1:
        section->kind = 1 + below(seed, 9);
        break;
    case 2:
        section->transport = 3 - section->transport;
        section->port = one_in(seed, 2) ? 0 : 1 + below(seed, 65534);
        break;
    default:
        section->port = 1 + below(seed, 65534);
    }
}

static size_t write_text(uint64_t *seed, struct draft *draft, unsigned count, uint8_t *out)
{
    struct second_style style = { .address = one_in(seed, 4) ? -1 : (int64_t)(second_draw(seed) & UINT32_MAX) };
    struct second_section *sections = draft->sections;

    style.direction = draft->session;
    style.turn = below(seed, SECOND_SECTION_LINES);
    style.passed = (unsigned)(second_draw(seed) & second_draw(seed));
    style.cr = one_in(seed, 3) ? (unsigned)second_draw(seed) : one_in(seed, 2) ? ~0u : 0;
    for (unsigned i = 0; i < count; i++)
        if (sections[i].port != 0 && style.address < 0 && sections[i].address < 0)
            sections[i].address = (int64_t)(second_draw(seed) & UINT32_MAX);
    return second_write_text(&style, sections, count, out);
}

void second_generate_exchange(struct second_call *call, struct second_exchange *exchange)
{
    struct draft offer, answer;
    uint64_t *seed = &call->seed;

    exchange->fresh = call->kinds[0] == 0 || one_in(seed, 6);
    if (exchange->fresh)
        draw_call(call);
    else
        change_call(call);
    unsigned answered = call->count;
    exchange->origin = below(seed, 2);
    draw_draft(call, &offer);
    draw_draft(call, &answer);
    for (unsigned i = 0; i < call->count; i++)
        if (offer.sections[i].port == 0)
            answer.sections[i].port = 0;
    if (one_in(seed, 8))
        break_fit(seed, answer.sections, &answered);
    exchange->offer_len = write_text(seed, &offer, call->count, exchange->offer);
    exchange->answer_len = write_text(seed, &answer, answered, exchange->answer);
    if (one_in(seed, 14))
        exchange->offer_len = second_generate_text(seed, exchange->offer, sizeof exchange->offer);
    if (one_in(seed, 14))
        exchange->answer_len = second_generate_text(seed, exchange->answer, sizeof exchange->answer);
}
