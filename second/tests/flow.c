#undef NDEBUG
#include "../generate/flow.h"
#include "../server/flow.h"

#include <assert.h>
#include <stdbool.h>
#include <stdio.h>
#include <stdlib.h>
#include <string.h>

#define OFFERED "v=0\nc=IN IP4 192.0.2.1\n"
#define ANSWERED "v=0\nc=IN IP4 192.0.2.9\n"
#define OFFER OFFERED "m=audio 40000 RTP/AVP 0\n"
#define FIRST OFFER "b=AS:64\n"
#define TIAS OFFER "b=TIAS:64001\n"
#define ANSWER ANSWERED "m=audio 50000 RTP/AVP 0\n"
#define X "m=x 0 udp 0\n"

static const struct second_settings settings = { 100000, 100000, 5000, 5000 };
static unsigned tests;

/* A copy of exactly its length, so that the sanitizer sees any byte read past it. */
static struct second_text read_copy(const char *text)
{
    struct second_text answer;
    size_t len = strlen(text);
    uint8_t *copy = malloc(len ? len : 1);

    memcpy(copy, text, len);
    second_read_text(copy, len, &answer);
    free(copy);
    return answer;
}

static struct second_fit fit(const char *offer, const char *answer)
{
    struct second_text first = read_copy(offer), then = read_copy(answer);

    assert(first.refusal == 0 && then.refusal == 0);
    return second_fit(second_sections(&first), second_sections(&then));
}

/* Both forms of the function, over memory that is not zeros, give the same. */
static struct second_state derive_after(const struct second_state *was, uint64_t origin, struct second_sections offer,
    struct second_sections answer)
{
    struct second_before before = second_before(was);
    struct second_state state = second_derive(&settings, origin, &before, offer, answer), other;

    memset(&other, 0xa5, sizeof other);
    second_derive_into(&settings, origin, &before, offer, answer, &other);
    assert(memcmp(&state, &other, sizeof state) == 0);
    return state;
}

/* The exchange moves the state on. */
static const struct second_component *derive(struct second_state *state, uint64_t origin, const char *offer,
    const char *answer)
{
    struct second_text first = read_copy(offer), then = read_copy(answer);

    assert(fit(offer, answer).refusal == 0);
    *state = derive_after(state, origin, second_sections(&first), second_sections(&then));
    return &state->components[0];
}

static struct second_state fresh(const char *offer, const char *answer)
{
    struct second_state state = { 0 };

    derive(&state, 0, offer, answer);
    return state;
}

static void check_rates(const struct second_state *state, uint64_t media_up, uint64_t media_down, uint64_t rtcp_up,
    uint64_t rtcp_down)
{
    const struct second_component *component = &state->components[0];

    assert(component->up.media == media_up && component->down.media == media_down);
    assert(component->up.rtcp == rtcp_up && component->down.rtcp == rtcp_down);
}

static void check_way(const struct second_way *way, uint32_t address, uint32_t port, uint32_t described)
{
    assert(way->address == address && way->port == port && way->described == described);
}

static void check_destination(struct second_destination destination, uint64_t address, uint64_t port)
{
    assert(destination.address == address && destination.port == port);
}

static void check_gates(const struct second_component *component, unsigned bits)
{
    struct second_gates gates = second_gates(component);

    assert(gates.media_up == (bits >> 3 & 1) && gates.media_down == (bits >> 2 & 1));
    assert(gates.rtcp_up == (bits >> 1 & 1) && gates.rtcp_down == (bits & 1));
}

static void test_cases_a_b(void)
{
    static const struct second_component none;
    struct second_state state = fresh(FIRST, ANSWER);
    const struct second_component *component = &state.components[0];

    check_rates(&state, 100000, 64000, 5000, 3200);
    assert(state.count == 1 && state.kept == 2 && component->status == 2 && component->class_number == 2);
    assert(component->kind == 1 && component->transport == 1);
    check_way(&component->up, 0xc0000209, 50000, 1);
    check_way(&component->down, 0xc0000201, 40000, 1);
    check_destination(second_media_destinations(component).up, 0xc0000209, 50000);
    check_destination(second_media_destinations(component).down, 0xc0000201, 40000);
    check_destination(second_rtcp_destinations(component).up, 0xc0000209, 50001);
    check_destination(second_rtcp_destinations(component).down, 0xc0000201, 40001);
    check_gates(component, 0xf);
    for (int i = 1; i < 8; i++)
        assert(memcmp(&state.components[i], &none, sizeof none) == 0);
    for (int again = 0; again < 2; again++) {
        derive(&state, 0, "v=0\nm=audio 0 RTP/AVP 0\nb=AS:64\n", "v=0\nm=audio 0 RTP/AVP 0\n");
        check_rates(&state, 0, 0, 0, 0);
        assert(state.kept == 2 && component->status == 4 && component->class_number == 0);
        check_way(&component->up, 0, 0, 0);
        check_way(&component->down, 0, 0, 0);
        check_gates(component, 0);
    }
    tests++;
}

static void test_cases_c_d_e(void)
{
    struct second_state state = fresh(FIRST, ANSWER "b=RS:800\nb=RR:2400\n");
    check_rates(&state, 100000, 64000, 3200, 3200);
    state = fresh(FIRST, ANSWER "b=RS:800\n");
    check_rates(&state, 100000, 64000, 5000, 3200);
    state = fresh(FIRST, ANSWER "b=RR:8000\n");
    check_rates(&state, 100000, 64000, 5000, 8000);
    state = fresh(FIRST "b=RS:9000\nb=RR:9000\n", ANSWER "b=AS:10\n");
    check_rates(&state, 10000, 64000, 500, 3200);
    state = fresh(FIRST, ANSWER "b=AS:0\nb=RS:0\n");
    check_rates(&state, 0, 64000, 0, 3200);
    state = fresh(FIRST, ANSWER "b=RS:4294967295\nb=RR:4294967295\n");
    check_rates(&state, 100000, 64000, 8589934590u, 8589934590u);
    tests++;
}

static void test_cases_f_g_h(void)
{
    struct second_state state = fresh(FIRST "a=inactive\n", ANSWER "a=sendrecv\n");
    assert(state.components[0].status == 3 && state.components[0].class_number == 2);
    check_rates(&state, 100000, 64000, 5000, 3200);
    check_gates(&state.components[0], 0);

    state = fresh(FIRST "a=sendonly\n", ANSWER "a=recvonly\n");
    assert(state.components[0].status == 0 && state.components[0].class_number == 4);
    check_way(&state.components[0].up, 0xc0000209, 50000, 1);
    check_way(&state.components[0].down, 0xc0000201, 40000, 0);
    check_destination(second_media_destinations(&state.components[0]).down, 0, 0);
    check_destination(second_rtcp_destinations(&state.components[0]).down, 0xc0000201, 40001);
    check_rates(&state, 100000, 0, 5000, 3200);
    check_gates(&state.components[0], 0xb);

    state = fresh(FIRST, ANSWER);
    derive(&state, 0, FIRST "a=sendonly\n", ANSWER "a=recvonly\n");
    assert(state.components[0].status == 0 && state.components[0].class_number == 2);
    check_rates(&state, 100000, 64000, 5000, 3200);
    check_gates(&state.components[0], 0xb);
    tests++;
}

static struct second_authorised bearer(const struct second_state *state, uint64_t set, uint64_t class_number,
    uint64_t up, uint64_t down)
{
    struct second_asked asked = { set, class_number, up, down };

    return second_authorise(state, &asked);
}

static void check_authorised(struct second_authorised answer, uint64_t refusal, uint64_t class_number, uint64_t up,
    uint64_t down)
{
    assert(answer.refusal == refusal && answer.class_number == class_number);
    assert(answer.up == up && answer.down == down);
}

static void test_case_k(void)
{
    struct second_state state = fresh(OFFER "b=AS:300000\n", ANSWER);

    check_rates(&state, 100000, 300000000, 5000, 15000000);
    check_authorised(bearer(&state, 1, 2, 105000, 256000000), 0, 2, 105000, 256000000);
    check_authorised(bearer(&state, 1, 2, 105000, 256000001), 17, 2, 105000, 256000000);
    check_authorised(bearer(&state, 1, 2, 105001, 0), 17, 2, 105000, 256000000);
    check_authorised(bearer(&state, 1, 1, 0, 0), 17, 2, 105000, 256000000);
    check_authorised(bearer(&state, 1, UINT64_MAX, 0, 0), 0, 2, 105000, 256000000);
    check_authorised(bearer(&state, 0, 9, 0, 0), 18, 0, 0, 0);
    check_authorised(bearer(&state, 2, 9, 0, 0), 18, 0, 0, 0);
    check_authorised(bearer(&state, 3, 9, 0, 0), 18, 0, 0, 0);
    check_authorised(bearer(&state, (uint64_t)1 << 63 | 1, 9, 0, 0), 18, 0, 0, 0);
    tests++;
}

static void test_bearer(void)
{
    struct second_state state = fresh(OFFERED "m=data 1 udp 0\nm=audio 2 udp 0\nm=x 3 udp 0\n",
        ANSWERED "m=data 1 udp 0\nb=AS:1\nm=audio 0 udp 0\nm=x 3 udp 0\nb=AS:2\n");

    check_authorised(bearer(&state, 7, 9, 3000, 200000), 0, 8, 3000, 200000);
    check_authorised(bearer(&state, 4, 9, 2000, 100000), 0, 9, 2000, 100000);
    check_authorised(bearer(&state, 4, 8, 2000, 100000), 17, 9, 2000, 100000);
    check_authorised(bearer(&state, 2, 9, 0, 0), 17, 0, 0, 0);
    check_authorised(bearer(&state, 8, 9, 0, 0), 18, 0, 0, 0);
    state.count = 0;
    check_authorised(bearer(&state, 1, 9, 0, 0), 18, 0, 0, 0);
    state.count = UINT64_MAX;
    check_authorised(bearer(&state, 255, 9, 0, 0), 0, 8, 3000, 200000);
    check_authorised(bearer(&state, 256, 9, 0, 0), 18, 0, 0, 0);
    state.components[7].up.media = UINT32_MAX;
    state.components[7].up.rtcp = UINT64_MAX;
    state.components[6].down.media = 255700000;
    state.components[6].down.rtcp = 100000;
    check_authorised(bearer(&state, 255, 9, 0, 0), 0, 8, 256000000, 256000000);
    state.components[6].down.rtcp--;
    check_authorised(bearer(&state, 255, 9, 0, 0), 0, 8, 256000000, 255999999);
    tests++;
}

/* Every status and transport, with and without described directions; numbers outside the table open nothing. */
static void test_gates(void)
{
    static const unsigned open[] = { 0xb, 0x7, 0xf, 0, 0, 0 };

    for (unsigned status = 0; status < 6; status++) {
        for (unsigned transport = 0; transport < 4; transport++) {
            for (unsigned described = 0; described < 4; described++) {
                struct second_component component = { .status = (uint16_t)status, .transport = (uint16_t)transport };
                component.up.described = (described >> 1) * UINT32_MAX;
                component.down.described = described & 1;
                check_gates(&component, open[status] & (described << 2 | (transport == 1 ? 3 : 0)));
            }
        }
    }
    tests++;
}

/* Of any component, whatever its bits. */
static void test_destinations(void)
{
    for (unsigned i = 0; i < 48; i++) {
        struct second_component component = { 1, (uint16_t)(i % 4), (uint16_t)(i / 4 % 6), 2,
            { .address = 7, .port = UINT32_MAX, .described = i / 24 }, { .address = 8, .described = UINT32_MAX } };
        bool rtcp = component.status != 4 && component.transport == 1;
        struct second_destinations media = second_media_destinations(&component),
            other = second_rtcp_destinations(&component);
        check_destination(media.up, i < 24 ? 0 : 7, i < 24 ? 0 : UINT32_MAX);
        check_destination(media.down, 8, 0);
        check_destination(other.up, rtcp ? 7 : 0, rtcp ? (uint64_t)1 << 32 : 0);
        check_destination(other.down, rtcp ? 8 : 0, rtcp);
    }
    tests++;
}

static void check_was(const struct second_before *before, unsigned i, unsigned kind, unsigned live, unsigned up,
    unsigned down)
{
    const struct second_was *was = &before->components[i];

    assert(was->kind == kind && was->live == live && was->up == up && was->down == down);
}

static void test_before(void)
{
    struct second_state state = { .count = 3, .kept = 4 };

    state.components[0] = (struct second_component) { .kind = 1, .up.described = 1, .down.port = 9 };
    state.components[1] = (struct second_component) { .kind = 6, .status = 4, .up.described = 1, .down.described = 1 };
    state.components[2] = (struct second_component) { .status = 5, .up.described = 2, .down.described = UINT32_MAX };
    state.components[3] = state.components[7] = state.components[2];
    for (unsigned i = 0; i < 2; i++) {
        struct second_before before = second_before(&state);
        assert(before.kept == 4);
        check_was(&before, 0, 1, 1, 1, 0);
        check_was(&before, 1, 6, 0, 0, 0);
        check_was(&before, 2, 0, 1, 1, 1);
        check_was(&before, 3, 0, i, i, i);
        check_was(&before, 7, 0, i, i, i);
        state.count = UINT64_MAX;
    }
    tests++;
}

/* A component that had both stays with both, but not a removed one, whatever a host says of it. */
static void test_had_both(void)
{
    for (unsigned i = 0; i < 32; i++) {
        struct second_state state = { .count = i & 1, .kept = 2 };
        struct second_component *was = &state.components[0];
        bool both = (i & 1) && !(i & 2) && (i & 4) && (i & 8) && !(i & 16);
        *was = (struct second_component) { .kind = i & 16 ? 2 : 1, .transport = 2, .status = i & 2 ? 4 : 0,
            .up.described = i >> 2 & 1, .down.described = i >> 3 & 1 };
        const struct second_component *now = derive(&state, 0, FIRST "a=sendonly\n", ANSWER "a=recvonly\n");
        check_way(&now->up, 0xc0000209, 50000, 1);
        check_way(&now->down, 0xc0000201, 40000, both);
        check_rates(&state, 100000, both ? 64000 : 0, 5000, 3200);
        assert(state.kept == (both ? 2 : 4));
    }
    tests++;
}

/* TIAS (02, request 7) in the place of First's AS, then from exchange to exchange AS beside it and neither. */
static void test_tias(void)
{
    struct second_state state = fresh(TIAS, ANSWER);

    check_rates(&state, 100000, 64001, 5000, 3201);
    check_authorised(bearer(&state, 1, 2, 105000, 67202), 0, 2, 105000, 67202);
    check_authorised(bearer(&state, 1, 2, 105000, 67203), 17, 2, 105000, 67202);
    derive(&state, 0, TIAS "b=AS:64\n", ANSWER "b=AS:0\nb=TIAS:1\n");
    check_rates(&state, 0, 64000, 0, 3200);
    derive(&state, 1, TIAS, ANSWER "b=TIAS:1\n");
    check_rates(&state, 64001, 1, 3201, 1);
    derive(&state, 0, OFFER, ANSWER);
    check_rates(&state, 100000, 100000, 5000, 5000);
    tests++;
}

/* Statuses for the 16 pairs of directions, sendrecv, sendonly, recvonly, inactive; rows are the offer's. */
static void test_statuses(void)
{
    static const char *const lines[] = { "a=sendrecv\n", "a=sendonly\n", "a=recvonly\n", "a=inactive\n" };
    static const char handset[] = "2103" "2103" "2103" "3333", network[] = "2013" "2013" "2013" "3333";

    for (int i = 0; i < 16; i++) {
        for (uint64_t origin = 0; origin < 3; origin++) {
            struct second_state state = { 0 };
            char offer[100], answer[100];
            strcat(strcpy(offer, FIRST), lines[i / 4]);
            strcat(strcpy(answer, ANSWER), lines[i % 4]);
            const struct second_component *component = derive(&state, origin, offer, answer);
            int status = (origin ? network : handset)[i] - '0';
            assert(component->status == status);
            check_way(&component->up, origin ? 0xc0000201 : 0xc0000209, origin ? 40000 : 50000, status != 1);
            check_way(&component->down, origin ? 0xc0000209 : 0xc0000201, origin ? 50000 : 40000, status != 0);
            assert(component->class_number == (status < 2 ? 4 : 2));
        }
    }
    tests++;
}

static void test_fit(void)
{
    static const struct { const char *offer, *answer; uint64_t refusal, place; } trials[] = {
        { "v=0\n", "v=0\n", 0, 0 },
        { "v=0\n", "v=0\n" X, 15, 0 },
        { "v=0\n" X, "v=0\n", 15, 0 },
        { "v=0\n" X X, "v=0\nm=audio 0 udp 0\n", 15, 0 },
        { "v=0\n" X, "v=0\nm=Audio 0 udp 1 2\n", 0, 0 },
        { "v=0\n" X, "v=0\nm=x 0 RTP/AVP 0\n", 15, 1 },
        { "v=0\n" X X, "v=0\n" X "m=data 0 udp 0\n", 15, 2 },
        { "v=0\n" X X X, ANSWERED X X "m=x 1 udp 0\n", 15, 3 },
        { "v=0\n" X X X, ANSWERED X "m=x 1 udp 0\n" "m=data 0 RTP/AVP 0\n", 15, 2 },
        { "v=0\n" X X X X X X X X, "v=0\n" X X X X X X X "m=video 0 udp 0\n", 15, 8 },
        { OFFERED "m=x 1 udp 0\n", "v=0\n" X, 0, 0 },
    };

    for (size_t i = 0; i < sizeof trials / sizeof trials[0]; i++) {
        struct second_fit answer = fit(trials[i].offer, trials[i].answer);
        assert(answer.refusal == trials[i].refusal && answer.place == trials[i].place);
    }
    struct second_text eight = read_copy("v=0\n" X X X X X X X X);
    struct second_sections many = { UINT64_MAX, eight.media }, more = { UINT64_MAX - 1, eight.media };
    struct second_state state = { 0 };
    assert(second_fit(many, many).refusal == 0 && second_fit(many, more).refusal == 15);
    assert(derive_after(&state, 0, many, many).count == 8);
    tests++;
}

/* Classes of audio and video from exchange to exchange; each case in a call of its own. */
static void test_kept_class(void)
{
    struct second_state state = fresh(OFFERED "m=audio 1 udp 0\nm=video 2 udp 0\n",
        ANSWERED "m=audio 1 udp 0\na=recvonly\nm=video 2 udp 0\na=sendonly\n");
    assert(state.kept == 2);
    derive(&state, 0, OFFERED "m=audio 1 udp 0\nm=video 2 udp 0\n", ANSWERED "m=audio 1 udp 0\na=recvonly\nm=video 0 udp 0\n");
    assert(state.kept == 2);
    derive(&state, 1, OFFERED "m=audio 1 udp 0\nm=video 0 udp 0\n", ANSWERED "m=audio 1 udp 0\na=sendonly\nm=video 0 udp 0\n");
    assert(state.kept == 4 && state.components[0].class_number == 4 && state.components[1].class_number == 0);
    derive(&state, 0, OFFERED "m=application 1 udp 0\n", ANSWERED "m=application 1 udp 0\n");
    assert(state.kept == 4 && state.components[0].class_number == 2);
    derive(&state, 0, OFFERED "m=audio 1 udp 0\n", ANSWERED "m=audio 1 udp 0\na=sendonly\n");
    assert(state.kept == 4 && state.components[0].up.described == 0);
    derive(&state, 0, OFFERED "m=video 1 udp 0\n", ANSWERED "m=video 1 udp 0\n");
    assert(state.kept == 2);
    derive(&state, 0, OFFERED "m=video 1 RTP/AVP 0\n", ANSWERED "m=video 1 RTP/AVP 0\na=sendonly\n");
    assert(state.kept == 2 && state.components[0].up.described == 1);
    derive(&state, 0, "v=0\n", "v=0\n");
    assert(state.kept == 2 && state.count == 0);
    tests++;
}

struct line_trial {
    const char *offer, *answer;
    uint64_t component, refusal, place, failed, text;
    const char *line;
};

static const struct line_trial line_trials[] = {
    { FIRST, ANSWER, 1, 0, 0, 0, 2, "m=audio 50000 RTP/AVP 0" },
    { FIRST, ANSWER, 0, 10, 0, 0, 2, "" },
    { FIRST, ANSWER, 2, 10, 0, 0, 2, "" },
    { FIRST, ANSWER, UINT64_MAX, 10, 0, 0, 2, "" },
    { FIRST "a=inactive\r\n", ANSWER "a=sendrecv\r\n", 1, 0, 0, 0, 1, "a=inactive" },
    { FIRST "a=sendonly\n", ANSWER "a=recvonly\r\n", 1, 0, 0, 0, 2, "a=recvonly" },
    { FIRST "a=sendonly\n", ANSWER, 1, 0, 0, 0, 2, "m=audio 50000 RTP/AVP 0" },
    { FIRST "a=inactive\n", "v=0\r\nm=audio 0 RTP/AVP 0 8\r\na=inactive\r\n", 1, 0, 0, 0, 2, "m=audio 0 RTP/AVP 0 8" },
    { "v=0\nm=x 00 udp 1\n", "v=0\n" X, 1, 0, 0, 0, 1, "m=x 00 udp 1" },
    { "v=0\n" X "m=y 0 udp a\r\n", "v=0\n" X X, 2, 0, 0, 0, 1, "m=y 0 udp a" },
    { "", "", 0, 2, 1, 1, 2, "" },
    { "v=0\n" X, "v=0\n\n", 7, 2, 2, 2, 2, "" },
    { "v=0\n" X, "v=0\n", 7, 15, 0, 0, 2, "" },
    { "v=0\n" X X, ANSWERED X "m=x 1 udp 0\n", 1, 15, 2, 0, 2, "" },
    { "v=0\n", "v=0\n", 1, 10, 0, 0, 2, "" },
    { "v=0\nm=x 1 udp 0\n", "v=0\nm=x 1 TCP 0\n", 1, 9, 2, 1, 2, "" },
};

static void test_deciding_lines(void)
{
    for (size_t i = 0; i < sizeof line_trials / sizeof line_trials[0]; i++) {
        const struct line_trial *trial = &line_trials[i];
        const char *texts[] = { "", trial->offer, trial->answer };
        struct second_decision answer = second_deciding_line((const uint8_t *)trial->offer, strlen(trial->offer),
            (const uint8_t *)trial->answer, strlen(trial->answer), trial->component);
        assert(answer.refusal == trial->refusal && answer.place == trial->place);
        assert(answer.failed == trial->failed && answer.text == trial->text);
        assert(answer.end - answer.start == strlen(trial->line));
        assert(memcmp(texts[answer.text] + answer.start, trial->line, strlen(trial->line)) == 0);
        assert(answer.refusal == 0 || (answer.start == 0 && answer.end == 0));
    }
    tests++;
}

/* What holds of either direction that exchanges leave. */
static void check_derived(const struct second_component *component, const struct second_way *way,
    struct second_destination media, struct second_destination rtcp)
{
    bool live = component->status != 4, has_rtcp = live && component->transport == 1;

    assert((way->port != 0) == live && way->described <= live && (way->described || way->media == 0));
    assert((media.port != 0) == (way->described == 1) && (rtcp.port == way->port + 1) == has_rtcp);
    assert(rtcp.address == (has_rtcp ? way->address : 0) && way->rtcp <= (has_rtcp ? 8589934590u : 0));
}

/* What holds of any state that exchanges leave. */
static void check_state(const struct second_state *state)
{
    for (unsigned i = 0; i < state->count; i++) {
        const struct second_component *component = &state->components[i];
        struct second_gates gates = second_gates(component);
        bool live = component->status != 4;
        assert(live == (component->class_number != 0));
        struct second_destinations media = second_media_destinations(component),
            rtcp = second_rtcp_destinations(component);
        check_derived(component, &component->up, media.up, rtcp.up);
        check_derived(component, &component->down, media.down, rtcp.down);
        assert((component->up.described || component->down.described) == live);
        assert(component->status < 3 || gates.media_up + gates.media_down + gates.rtcp_up + gates.rtcp_down == 0);
    }
}

/* The generator gives each refusal number, status and class, and exchanges that follow on others. */
static void test_generated(void)
{
    static struct second_exchange exchange;
    unsigned refusals[16] = { 0 }, statuses[5] = { 0 }, classes[10] = { 0 };
    struct second_call call = { .seed = 1 };
    struct second_state state = { 0 };

    for (int i = 0; i < 20000; i++) {
        struct second_text offer, answer;
        second_generate_exchange(&call, &exchange);
        second_read_text(exchange.offer, exchange.offer_len, &offer);
        second_read_text(exchange.answer, exchange.answer_len, &answer);
        if (exchange.fresh)
            memset(&state, 0, sizeof state);
        uint64_t fit = second_fit(second_sections(&offer), second_sections(&answer)).refusal;
        uint64_t refusal = offer.refusal ? offer.refusal : answer.refusal ? answer.refusal : fit;
        refusals[refusal]++;
        if (refusal)
            continue;
        state = derive_after(&state, exchange.origin, second_sections(&offer), second_sections(&answer));
        check_state(&state);
        for (unsigned j = 0; j < state.count; j++) {
            statuses[state.components[j].status]++;
            classes[state.components[j].class_number]++;
        }
    }
    for (int i = 0; i < 10; i++)
        assert(refusals[i] >= 20);
    assert(refusals[15] >= 1000 && refusals[0] >= 12000);
    for (int i = 0; i < 5; i++)
        assert(statuses[i] >= 2000);
    assert(classes[0] && classes[2] && classes[4] >= 1000 && classes[6] && classes[8] && classes[9]);
    tests++;
}

int main(void)
{
    test_cases_a_b();
    test_cases_c_d_e();
    test_cases_f_g_h();
    test_case_k();
    test_bearer();
    test_gates();
    test_destinations();
    test_before();
    test_had_both();
    test_tias();
    test_statuses();
    test_fit();
    test_kept_class();
    test_deciding_lines();
    test_generated();
    printf("second: %u tests of flows passed\n", tests);
    return 0;
}
