#include "flow.h"

#include <stdbool.h>
#include <string.h>

enum { COMPONENTS = 8 };
enum { AUDIO = 1, VIDEO, APPLICATION, DATA, CONTROL };
enum { RTP_AVP = 1 };
enum { SENDRECV = 1, SENDONLY, RECVONLY, INACTIVE };
enum { ENABLED_UPLINK, ENABLED_DOWNLINK, ENABLED, DISABLED, REMOVED };
enum { COMPONENT_UNKNOWN = 10, ANSWER_MISFIT = 15, BEARER_BEYOND = 17, BEARER_SET = 18 };

#define BEARER_TOP 256000000u

/* The two sections of one component; the uplink SDP is the handset's. */
struct pair {
    const struct second_media *offer, *answer, *uplink, *downlink;
    bool answer_is_uplink;
};

static unsigned up_to_eight(uint64_t count)
{
    return count < COMPONENTS ? (unsigned)count : COMPONENTS;
}

static struct pair pair_of(const struct second_media *offer, const struct second_media *answer, bool network_offered)
{
    return (struct pair) { offer, answer, network_offered ? answer : offer, network_offered ? offer : answer,
        network_offered };
}

struct second_sections second_sections(const struct second_text *text)
{
    return (struct second_sections) { text->count, text->media };
}

static bool section_fits(const struct second_media *offer, const struct second_media *answer)
{
    return answer->kind == offer->kind && answer->transport == offer->transport
        && (offer->port != 0 || answer->port == 0);
}

struct second_fit second_fit(struct second_sections offer, struct second_sections answer)
{
    if (offer.count != answer.count)
        return (struct second_fit) { ANSWER_MISFIT, 0 };
    for (unsigned i = 0; i < up_to_eight(offer.count); i++)
        if (!section_fits(&offer.media[i], &answer.media[i]))
            return (struct second_fit) { ANSWER_MISFIT, i + 1 };
    return (struct second_fit) { 0, 0 };
}

/* Only the answer decides for one direction alone, as the offer decides when it is inactive only. */
static uint16_t status_of(const struct pair *pair)
{
    if (pair->offer->port == 0 || pair->answer->port == 0)
        return REMOVED;
    if (pair->offer->direction == INACTIVE)
        return DISABLED;
    switch (pair->answer->direction) {
    case INACTIVE:
        return DISABLED;
    case SENDONLY:
        return pair->answer_is_uplink ? ENABLED_UPLINK : ENABLED_DOWNLINK;
    case RECVONLY:
        return pair->answer_is_uplink ? ENABLED_DOWNLINK : ENABLED_UPLINK;
    default:
        return ENABLED;
    }
}

/* One twentieth "is rounded up, so RTCP is never short" (02, request 7). */
static inline uint64_t rtcp_rate(const struct second_media *receiver, const struct second_media *answer, uint32_t otherwise)
{
    if (answer->has_rs && answer->has_rr)
        return (uint64_t)answer->rs + answer->rr;
    if (!receiver->has_requested)
        return otherwise;
    uint64_t rate = ((uint64_t)receiver->requested + 19) / 20;
    if (answer->has_rs && answer->rs > rate)
        rate = answer->rs;
    if (answer->has_rr && answer->rr > rate)
        rate = answer->rr;
    return rate;
}

/* The direction whose packets the side of that SDP receives. */
static inline void derive_way(const struct second_media *receiver, const struct pair *pair, bool described,
    uint32_t media_default, uint32_t rtcp_default, struct second_way *way)
{
    *way = (struct second_way) {
        .rtcp = pair->offer->transport == RTP_AVP ? rtcp_rate(receiver, pair->answer, rtcp_default) : 0,
        .address = receiver->address,
        .media = !described ? 0 : receiver->has_requested ? receiver->requested : media_default,
        .port = receiver->port,
        .described = described,
    };
}

static bool had_both(const struct second_was *was, const struct second_media *media)
{
    return was->kind == media->kind && was->up != 0 && was->down != 0;
}

static void derive_ways(const struct second_settings *settings, const struct second_was *was, const struct pair *pair,
    struct second_component *now)
{
    bool both = now->status == ENABLED || now->status == DISABLED || had_both(was, pair->offer);

    derive_way(pair->downlink, pair, both || now->status == ENABLED_UPLINK, settings->media_up, settings->rtcp_up,
        &now->up);
    derive_way(pair->uplink, pair, both || now->status == ENABLED_DOWNLINK, settings->media_down, settings->rtcp_down,
        &now->down);
}

static bool audio_or_video(unsigned kind)
{
    return kind == AUDIO || kind == VIDEO;
}

/* What decides the kept class, over the live audio and video of an exchange and of what was there before it. */
struct seen {
    bool any, added, gone, some_up, some_down;
};

static bool lived(const struct second_was *was)
{
    return was->live != 0 && audio_or_video(was->kind);
}

static void see(struct seen *seen, const struct second_was *was, const struct second_component *now)
{
    if (now->status == REMOVED || !audio_or_video(now->kind)) {
        seen->gone |= lived(was);
        return;
    }
    seen->any = true;
    seen->added |= !lived(was) || was->kind != now->kind;
    seen->some_up |= now->up.described != 0;
    seen->some_down |= now->down.described != 0;
}

static uint64_t kept_class(const struct seen *seen, uint64_t was)
{
    if (!seen->any || (seen->gone && !seen->added))
        return was;
    return seen->some_up && seen->some_down ? 2 : 4;
}

static uint16_t class_of(const struct second_component *component, uint64_t kept)
{
    if (component->status == REMOVED)
        return 0;
    switch (component->kind) {
    case AUDIO:
    case VIDEO:
        return (uint16_t)kept;
    case APPLICATION:
        return 2;
    case DATA:
        return 8;
    case CONTROL:
        return 6;
    default:
        return 9;
    }
}

static struct second_was was_of(const struct second_component *component)
{
    bool live = component->status != REMOVED;

    return (struct second_was) { component->kind, live, live && component->up.described != 0,
        live && component->down.described != 0 };
}

void second_before_of(uint64_t kept, const struct second_component *components, uint64_t count,
    struct second_before *before)
{
    unsigned used = up_to_eight(count);

    before->kept = (uint16_t)kept;
    for (unsigned i = 0; i < used; i++)
        before->components[i] = was_of(&components[i]);
    memset(before->components + used, 0, (COMPONENTS - used) * sizeof before->components[0]);
}

struct second_before second_before(const struct second_state *state)
{
    struct second_before before;

    second_before_of(state->kept, state->components, state->count, &before);
    return before;
}

/* Its class is left for later. */
static void derive_component(const struct second_settings *settings, const struct second_was *was,
    const struct pair *pair, struct second_component *now)
{
    *now = (struct second_component) { .kind = pair->offer->kind, .transport = pair->offer->transport,
        .status = status_of(pair) };
    if (now->status != REMOVED)
        derive_ways(settings, was, pair, now);
}

/* The classes come last, as the kept one needs all components. */
void second_derive_into(const struct second_settings *settings, uint64_t origin, const struct second_before *before,
    struct second_sections offer, struct second_sections answer, struct second_state *now)
{
    unsigned count = up_to_eight(offer.count);
    struct seen seen = { 0 };

    for (unsigned i = 0; i < count; i++) {
        struct pair pair = pair_of(&offer.media[i], &answer.media[i], origin != 0);
        derive_component(settings, &before->components[i], &pair, &now->components[i]);
        see(&seen, &before->components[i], &now->components[i]);
    }
    for (unsigned i = count; i < COMPONENTS; i++)
        seen.gone |= lived(&before->components[i]);
    memset(now->components + count, 0, (COMPONENTS - count) * sizeof now->components[0]);
    now->count = count;
    now->kept = kept_class(&seen, before->kept);
    for (unsigned i = 0; i < count; i++)
        now->components[i].class_number = class_of(&now->components[i], now->kept);
}

struct second_state second_derive(const struct second_settings *settings, uint64_t origin,
    const struct second_before *before, struct second_sections offer, struct second_sections answer)
{
    struct second_state now;

    second_derive_into(settings, origin, before, offer, answer, &now);
    return now;
}

static struct second_destination destination(const struct second_way *way, bool given, unsigned above)
{
    if (!given)
        return (struct second_destination) { 0, 0 };
    return (struct second_destination) { way->address, (uint64_t)way->port + above };
}

struct second_destinations second_media_destinations(const struct second_component *component)
{
    return (struct second_destinations) {
        .up = destination(&component->up, component->up.described != 0, 0),
        .down = destination(&component->down, component->down.described != 0, 0),
    };
}

static bool has_rtcp(const struct second_component *component)
{
    return component->status != REMOVED && component->transport == RTP_AVP;
}

struct second_destinations second_rtcp_destinations(const struct second_component *component)
{
    bool given = has_rtcp(component);

    return (struct second_destinations) {
        .up = destination(&component->up, given, 1), .down = destination(&component->down, given, 1),
    };
}

struct second_gates second_gates(const struct second_component *component)
{
    unsigned status = component->status;
    bool up = status == ENABLED || status == ENABLED_UPLINK, down = status == ENABLED || status == ENABLED_DOWNLINK;
    bool rtcp = (up || down) && has_rtcp(component);

    return (struct second_gates) {
        .media_up = up && component->up.described != 0,
        .media_down = down && component->down.described != 0,
        .rtcp_up = rtcp,
        .rtcp_down = rtcp,
    };
}

/* The sum, at most 256,000,000; the first addend is that already. */
static uint64_t add(uint64_t sum, uint64_t rate)
{
    return rate < BEARER_TOP - sum ? sum + rate : BEARER_TOP;
}

struct second_authorised second_authorise_over(const struct second_component *components, uint64_t count,
    const struct second_asked *asked)
{
    struct second_authorised authorised = { 0 };
    bool live = false;

    if (asked->set == 0 || asked->set >> up_to_eight(count) != 0)
        return (struct second_authorised) { .refusal = BEARER_SET };
    for (unsigned i = 0; i < up_to_eight(count); i++) {
        const struct second_component *component = &components[i];
        uint64_t class_number = component->class_number;
        if ((asked->set >> i & 1) == 0)
            continue;
        live = live || component->status != REMOVED;
        if (class_number != 0 && (authorised.class_number == 0 || class_number < authorised.class_number))
            authorised.class_number = class_number;
        authorised.up = add(add(authorised.up, component->up.media), component->up.rtcp);
        authorised.down = add(add(authorised.down, component->down.media), component->down.rtcp);
    }
    if (!live || asked->class_number < authorised.class_number || asked->up > authorised.up
        || asked->down > authorised.down)
        authorised.refusal = BEARER_BEYOND;
    return authorised;
}

struct second_authorised second_authorise(const struct second_state *state, const struct second_asked *asked)
{
    return second_authorise_over(state->components, state->count, asked);
}

static struct second_decision refused(uint64_t refusal, uint64_t place, uint64_t failed)
{
    return (struct second_decision) { .refusal = refusal, .place = place, .failed = failed, .text = 2 };
}

static struct second_decision media_line(uint64_t text, const struct second_media *media)
{
    return (struct second_decision) { .text = text, .start = media->m_start, .end = media->m_end };
}

/* Of a section without its own: "the deciding line may be that session line" (02, request 1). */
static struct second_decision direction_line(uint64_t text, const struct second_media *media)
{
    return (struct second_decision) { .text = text, .start = media->d_start, .end = media->d_end };
}

struct second_decision second_deciding_line(const uint8_t *offer, size_t offer_len, const uint8_t *answer,
    size_t answer_len, uint64_t component)
{
    struct second_text offered, answered;

    second_read_text(offer, offer_len, &offered);
    if (offered.refusal != 0)
        return refused(offered.refusal, offered.place, 1);
    second_read_text(answer, answer_len, &answered);
    if (answered.refusal != 0)
        return refused(answered.refusal, answered.place, 2);
    struct second_fit fit = second_fit(second_sections(&offered), second_sections(&answered));
    if (fit.refusal != 0)
        return refused(fit.refusal, fit.place, 0);
    if (component == 0 || component > offered.count)
        return refused(COMPONENT_UNKNOWN, 0, 0);

    const struct second_media *first = &offered.media[component - 1], *then = &answered.media[component - 1];
    if (first->port == 0)
        return media_line(1, first);
    if (then->port == 0)
        return media_line(2, then);
    if (first->direction == INACTIVE)
        return direction_line(1, first);
    return then->d_end != 0 ? direction_line(2, then) : media_line(2, then);
}
