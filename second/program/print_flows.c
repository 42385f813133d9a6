#include "../server/flow.h"
#include "print.h"

#include <inttypes.h>
#include <stdio.h>

static const struct second_settings settings = {
    .media_up = 100000, .media_down = 90000, .rtcp_up = 5000, .rtcp_down = 4000
};

/* What the head of an exchange says of the state it starts from. */
enum mode { GO_ON, FRESH, SAVED, FRESH_AND_SAVE };

struct exchange {
    unsigned long number;
    unsigned origin;
    enum mode mode;
    struct second_file_text offer, answer;
};

struct states {
    struct second_state last, saved;
};

static bool read_exchange(struct second_file *file, struct exchange *exchange)
{
    uint32_t head;

    if (!second_file_number(file, '\n', &head) || head >= 8)
        return false;
    exchange->origin = head % 2;
    exchange->mode = (enum mode)(head / 2);
    return second_file_text(file, &exchange->offer) && second_file_text(file, &exchange->answer);
}

static void print_refusal(unsigned long number, uint64_t refusal, uint64_t place, int failed)
{
    printf("exchange %lu refused %" PRIu64 " %" PRIu64 " %d\n", number, refusal, place, failed);
}

static void print_destinations(const char *name, struct second_destinations flow)
{
    printf(" %s %" PRIu64 ":%" PRIu64 " %" PRIu64 ":%" PRIu64, name, flow.up.address, flow.up.port,
        flow.down.address, flow.down.port);
}

static void print_component(unsigned number, const struct second_component *component)
{
    const struct second_way *up = &component->up, *down = &component->down;
    struct second_gates gates = second_gates(component);

    printf("%u %u %u %u %u", number, (unsigned)component->kind, (unsigned)component->transport,
        (unsigned)component->status, (unsigned)component->class_number);
    print_destinations("media", second_media_destinations(component));
    print_destinations("rtcp", second_rtcp_destinations(component));
    printf(" rates %" PRIu32 " %" PRIu32 " %" PRIu64 " %" PRIu64, up->media, down->media, up->rtcp, down->rtcp);
    printf(" gates %u %u %u %u\n", (unsigned)gates.media_up, (unsigned)gates.media_down, (unsigned)gates.rtcp_up,
        (unsigned)gates.rtcp_down);
}

static void print_deciding_line(unsigned number, const struct exchange *exchange)
{
    const struct second_file_text *offer = &exchange->offer, *answer = &exchange->answer;
    struct second_decision decision = second_deciding_line(offer->bytes, offer->len, answer->bytes, answer->len, number);
    const struct second_file_text *text = decision.text == 1 ? offer : answer;

    printf("%u by ", number);
    fwrite(text->bytes + decision.start, 1, (size_t)(decision.end - decision.start), stdout);
    putchar('\n');
}

static void print_bearer(const struct second_state *state)
{
    struct second_asked asked = { .set = ((uint64_t)1 << state->count) - 1, .class_number = 9 };
    struct second_authorised authorised = second_authorise(state, &asked);

    printf("bearer %" PRIu64 " %" PRIu64 " %" PRIu64 " %" PRIu64 "\n", authorised.refusal, authorised.class_number,
        authorised.up, authorised.down);
}

static void print_state(const struct exchange *exchange, const struct second_state *state)
{
    printf("exchange %lu count %" PRIu64 " kept %" PRIu64 "\n", exchange->number, state->count, state->kept);
    for (unsigned i = 0; i < state->count; i++) {
        print_component(i + 1, &state->components[i]);
        print_deciding_line(i + 1, exchange);
    }
    print_bearer(state);
}

/* A refused exchange changes neither state. */
static void play(const struct exchange *exchange, struct states *states)
{
    static const struct second_state fresh;
    struct second_before before = second_before(exchange->mode == GO_ON ? &states->last
        : exchange->mode == SAVED ? &states->saved : &fresh);
    struct second_text offer, answer;

    second_read_text(exchange->offer.bytes, exchange->offer.len, &offer);
    second_read_text(exchange->answer.bytes, exchange->answer.len, &answer);
    struct second_fit fit = second_fit(second_sections(&offer), second_sections(&answer));
    if (offer.refusal) {
        print_refusal(exchange->number, offer.refusal, offer.place, 1);
    } else if (answer.refusal) {
        print_refusal(exchange->number, answer.refusal, answer.place, 2);
    } else if (fit.refusal) {
        print_refusal(exchange->number, fit.refusal, fit.place, 0);
    } else {
        states->last = second_derive(&settings, exchange->origin, &before, second_sections(&offer),
            second_sections(&answer));
        if (exchange->mode == FRESH_AND_SAVE)
            states->saved = states->last;
        print_state(exchange, &states->last);
    }
}

int print_flows(struct second_file *file)
{
    static struct states states;

    for (unsigned long number = 1; file->at < file->len; number++) {
        struct exchange exchange = { .number = number };
        if (!read_exchange(file, &exchange)) {
            puts("bad file");
            return 1;
        }
        play(&exchange, &states);
    }
    return 0;
}
