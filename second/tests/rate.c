#undef NDEBUG
#include "../generate/draw.h"
#include "../server/flow.h"

#include <assert.h>
#include <inttypes.h>
#include <stdio.h>
#include <stdlib.h>
#include <string.h>

/* The requested rate, from AS or TIAS (02, request 7): in texts, and in what exchanges derive from it. */

#define V "v=0\n"
#define C "c=IN IP4 192.0.2.1\n"
#define M "m=audio 0 RTP/AVP 0\n"
#define L "m=video 40000 RTP/AVP 0\n"

static const struct second_settings settings = { 100000, 90000, 5000, 4000 };
static unsigned tests;

/* A text: its refusal and place, or of each media section the requested rate, - for none. */
struct text_trial {
    const char *text;
    size_t len;
    uint32_t refusal, place;
    const char *rates;
};

#define GOOD(text, rates) { text, sizeof(text) - 1, 0, 0, rates }
#define REFUSED(text, place) { text, sizeof(text) - 1, 7, place, "" }
#define REFUSED_BY(text, refusal, place) { text, sizeof(text) - 1, refusal, place, "" }

static const struct text_trial good_trials[] = {
    /* Else TIAS as it stands. */
    GOOD(V M, "-"),
    GOOD(V M "b=TIAS:64000\n", "64000"),
    GOOD(V M "b=TIAS:64001\n", "64001"),
    GOOD("v=0\r\nm=audio 0 RTP/AVP 0\r\nb=TIAS:64001\r\n", "64001"),
    GOOD(V M "b=TIAS:1\n", "1"),
    GOOD(V C L "s=-\nb=TIAS:999\na=inactive\n", "999"),
    /* Present at 0. */
    GOOD(V M "b=TIAS:0\n", "0"),
    GOOD(V M "b=TIAS:0000000000\n", "0"),
    /* 1 to 10 digits, to 4,294,967,295. */
    GOOD(V M "b=TIAS:4294967294\n", "4294967294"),
    GOOD(V M "b=TIAS:4294967295\n", "4294967295"),
    GOOD(V M "b=TIAS:0000064001\n", "64001"),
    GOOD(V M "b=TIAS:4294967\n", "4294967"),
    GOOD(V M "b=TIAS:4294968\n", "4294968"),
    /* Kilobits are turned to bit/s. */
    GOOD(V M "b=AS:64\n", "64000"),
    GOOD(V M "b=AS:1\n", "1000"),
    GOOD(V M "b=AS:0\n", "0"),
    GOOD(V M "b=AS:0004294967\n", "4294967000"),
    /* AS decides where present, in either order, and at 0. */
    GOOD(V M "b=AS:64\nb=TIAS:64001\n", "64000"),
    GOOD(V M "b=TIAS:64001\nb=AS:64\n", "64000"),
    GOOD(V M "b=AS:64\nb=TIAS:1\n", "64000"),
    GOOD(V M "b=TIAS:4294967295\nb=AS:1\n", "1000"),
    GOOD(V M "b=AS:0\nb=TIAS:64001\n", "0"),
    GOOD(V M "b=TIAS:64001\nb=AS:0\n", "0"),
    GOOD(V M "b=AS:4294967\nb=TIAS:4294967295\n", "4294967000"),
    GOOD(V M "b=TIAS:0\nb=AS:64\n", "64000"),
    GOOD(V M "b=AS:64\nb=TIAS:0\n", "64000"),
    GOOD(V M "b=RS:1\nb=TIAS:64001\nb=RR:2\ns=-\nb=AS:64\n", "64000"),
    GOOD(V M "b=AS:64\nb=RS:1\nb=CT:x\nb=RR:2\nb=TIAS:64001\n", "64000"),
    /* Each section has its own. */
    GOOD(V M "b=TIAS:1\n" M "b=TIAS:2\n", "1 2"),
    GOOD(V M "b=AS:1\n" M "b=TIAS:2\n" M, "1000 2 -"),
    GOOD(V M "b=TIAS:1\n" M "b=AS:2\n" M "b=TIAS:3\nb=AS:4\n", "1 2000 4000"),
    GOOD(V M "b=AS:1\nb=TIAS:1\n" M "b=TIAS:5\n" M "b=AS:0\n", "1000 5 0"),
    GOOD(V M M "b=TIAS:7\n" M, "- 7 -"),
    /* All b= in the session section are passed over, whatever they say. */
    GOOD(V "b=TIAS:64001\n" M, "-"),
    GOOD(V "b=TIAS:x\nb=TIAS:\nb=TIAS:4294967296\nb=TIAS:00000000001\n" M "b=TIAS:5\n", "5"),
    GOOD(V "b=TIAS:1\nb=TIAS:1\nb=AS:2\n" M "b=TIAS:3\n" M, "3 -"),
    GOOD(V "b=TIAS:1\nb=TIAS:1\n", ""),
};

static const struct text_trial near_trials[] = {
    /* Other modifiers are passed over, beside a good one too. */
    GOOD(V M "b=TIAS\nb=TIA:1\nb=tias:1\nb=Tias:1\nb=TIAs:1\nb=TIAS :1\nb= TIAS:1\nb=XTIAS:1\nb=X-TIAS:1\n", "-"),
    GOOD(V M "b=TIASX:1\nb=TIAS\t:1\nb=TIAS;1\nb=TIAS=1\nb=TIAS1\nb=TIAS.:x\nb=T\nb=TI\nb=TIA\nb=T:1\nb=TI:1\n", "-"),
    GOOD(V M "b=IAS:1\nb=TAS:1\nb=TIRS:1\nb=TIRR:1\nb=STIA:1\nb=tias\nb=TIAS \nb=:TIAS:1\n", "-"),
    GOOD(V M "b=tias:x\nb=TIAS:5\nb=TIASX:\nb=TIA:x\n", "5"),
    GOOD(V M "a=TIAS:x\ns=b=TIAS:1\na=b=TIAS:1\n", "-"),
};

static const struct text_trial bad_trials[] = {
    /* The value. */
    REFUSED(V M "b=TIAS:4294967296\n", 3),
    REFUSED(V M "b=TIAS:4294967300\n", 3),
    REFUSED(V M "b=TIAS:9999999999\n", 3),
    REFUSED(V M "b=TIAS:8589934591\n", 3),
    REFUSED(V M "b=TIAS:00000064001\n", 3),
    REFUSED(V M "b=TIAS:00000000000\n", 3),
    REFUSED(V M "b=TIAS:04294967295\n", 3),
    REFUSED(V M "b=TIAS:18446744073709551617\n", 3),
    REFUSED(V M "b=TIAS:\n", 3),
    REFUSED(V M "b=TIAS: 1\n", 3),
    REFUSED(V M "b=TIAS:1 \n", 3),
    REFUSED(V M "b=TIAS:-1\n", 3),
    REFUSED(V M "b=TIAS:+1\n", 3),
    REFUSED(V M "b=TIAS:1k\n", 3),
    REFUSED(V M "b=TIAS:/\n", 3),
    REFUSED(V M "b=TIAS::\n", 3),
    REFUSED(V M "b=TIAS:6.4\n", 3),
    /* Also beside an AS, before it and after it. */
    REFUSED(V M "b=AS:64\nb=TIAS:x\n", 4),
    REFUSED(V M "b=AS:64\nb=TIAS:4294967296\n", 4),
    REFUSED(V M "b=TIAS:4294967296\nb=AS:64\n", 3),
    REFUSED(V M "b=TIAS:64001\nb=AS:4294968\n", 4),
    REFUSED(V M "b=AS:64001000\nb=TIAS:64001\n", 3),
    /* At most once, equal or not, and beside an AS. */
    REFUSED(V M "b=TIAS:64001\nb=TIAS:64001\n", 4),
    REFUSED(V M "b=TIAS:0\nb=TIAS:0\n", 4),
    REFUSED(V M "b=TIAS:1\nb=TIAS:2\n", 4),
    REFUSED(V M "b=TIAS:1\nb=AS:1\nb=TIAS:1\n", 5),
    REFUSED(V M "b=AS:1\nb=TIAS:1\nb=TIAS:1\n", 5),
    REFUSED(V M "b=TIAS:1\nb=TIAS:1\nb=AS:1\n", 4),
    REFUSED(V M "b=TIAS:1\nb=AS:1\nb=AS:1\n", 5),
    REFUSED(V M "b=AS:0\nb=TIAS:1\nb=AS:0\n", 5),
    REFUSED(V "b=TIAS:1\n" M "b=TIAS:1\n" M "b=TIAS:1\ns=-\nb=TIAS:1\n", 8),
    /* The first faulty line, 2 before 7 in one, 7 before 9. */
    REFUSED_BY(V M "b=TIAS:x\0\n", 2, 3),
    REFUSED_BY(V M "b=TIAS:1\nb=TIAS:1", 2, 4),
    REFUSED_BY(V M "c=x\nb=TIAS:x\n", 6, 3),
    REFUSED(V M "b=TIAS:x\nc=x\n", 3),
    REFUSED(V L "b=TIAS:4294967296\n", 3),
    REFUSED_BY(V L "b=TIAS:4294967295\n", 9, 2),
};

/* A copy of exactly its length, so that the sanitizer sees any byte read past it. */
static struct second_text read_copy(const char *text, size_t len)
{
    struct second_text answer;
    uint8_t *copy = malloc(len);

    memcpy(copy, text, len);
    memset(&answer, 0xa5, sizeof answer);
    second_read_text(copy, len, &answer);
    free(copy);
    return answer;
}

static void write_rates(const struct second_text *answer, char *out)
{
    *out = '\0';
    for (unsigned i = 0; i < answer->count; i++) {
        const struct second_media *media = &answer->media[i];
        assert(media->has_requested == 1 || (media->has_requested == 0 && media->requested == 0));
        if (i > 0)
            *out++ = ' ';
        out += media->has_requested ? sprintf(out, "%" PRIu32, media->requested) : sprintf(out, "-");
    }
}

static void run(const struct text_trial *trials, size_t count)
{
    for (size_t i = 0; i < count; i++) {
        const struct text_trial *trial = &trials[i];
        struct second_text answer = read_copy(trial->text, trial->len);
        char rates[100];
        write_rates(&answer, rates);
        if (answer.refusal != trial->refusal || answer.place != trial->place || strcmp(rates, trial->rates) != 0)
            fprintf(stderr, "refused %u %u, rates %s: %s\n", (unsigned)answer.refusal, (unsigned)answer.place, rates,
                trial->text);
        assert(answer.refusal == trial->refusal && answer.place == trial->place && strcmp(rates, trial->rates) == 0);
        tests++;
    }
}

#define RUN(trials) run(trials, sizeof(trials) / sizeof((trials)[0]))

/* A live RTP/AVP section with these lines in each text, the offer's after rates in its session section; origin 0. */
struct exchange_trial {
    const char *offer, *answer;
    uint64_t media_up, media_down, rtcp_up, rtcp_down;
};

static const struct exchange_trial exchange_trials[] = {
    { "", "", 100000, 90000, 5000, 4000 },
    /* TIAS alone: up is the downlink SDP's, down the uplink SDP's, and a twentieth is rounded up. */
    { "b=TIAS:64001\n", "", 100000, 64001, 5000, 3201 },
    { "", "b=TIAS:64001\n", 64001, 90000, 3201, 4000 },
    { "b=TIAS:64000\n", "b=TIAS:63999\n", 63999, 64000, 3200, 3200 },
    { "b=TIAS:64020\n", "b=TIAS:64021\n", 64021, 64020, 3202, 3201 },
    { "b=TIAS:1\n", "b=TIAS:20\n", 20, 1, 1, 1 },
    { "b=TIAS:19\n", "b=TIAS:21\n", 21, 19, 2, 1 },
    { "b=TIAS:0\n", "b=TIAS:0\n", 0, 0, 0, 0 },
    { "b=TIAS:4294967295\n", "b=TIAS:4294967280\n", 4294967280u, 4294967295u, 214748364, 214748365 },
    { "b=TIAS:4294967281\n", "b=TIAS:4294967279\n", 4294967279u, 4294967281u, 214748364, 214748365 },
    /* AS beside it. */
    { "b=TIAS:64001\nb=AS:64\n", "b=AS:40\nb=TIAS:64001\n", 40000, 64000, 2000, 3200 },
    { "b=AS:0\nb=TIAS:64001\n", "b=TIAS:64001\nb=AS:0\n", 0, 0, 0, 0 },
    { "b=AS:4294967\nb=TIAS:1\n", "b=TIAS:4294967295\nb=AS:1\n", 1000, 4294967000u, 50, 214748350 },
    /* The answer's RS or RR alone: the largest, after the rounding. */
    { "b=TIAS:64001\n", "b=RS:3200\n", 100000, 64001, 5000, 3201 },
    { "b=TIAS:64001\n", "b=RS:3201\n", 100000, 64001, 5000, 3201 },
    { "b=TIAS:64001\n", "b=RS:3202\n", 100000, 64001, 5000, 3202 },
    { "b=TIAS:64001\n", "b=RR:3200\n", 100000, 64001, 5000, 3201 },
    { "b=TIAS:64001\n", "b=RR:8000\n", 100000, 64001, 5000, 8000 },
    { "b=TIAS:64001\n", "b=TIAS:40001\nb=RR:2000\n", 40001, 64001, 2001, 3201 },
    { "b=TIAS:64001\n", "b=TIAS:40001\nb=RS:2500\n", 40001, 64001, 2500, 3201 },
    { "b=TIAS:64001\n", "b=RS:4294967295\n", 100000, 64001, 5000, 4294967295u },
    /* Both, whatever is requested; the offer's are not read. */
    { "b=TIAS:64001\n", "b=RS:800\nb=RR:2400\n", 100000, 64001, 3200, 3200 },
    { "b=TIAS:64001\nb=RS:9000\nb=RR:9000\n", "b=TIAS:1\nb=RS:0\nb=RR:0\n", 1, 64001, 0, 0 },
    { "b=TIAS:64001\nb=RS:9000\nb=RR:9000\n", "", 100000, 64001, 5000, 3201 },
    /* Lines near it are not read. */
    { "b=AS:64\n", "b=tias:1\nb=TIAS\n", 100000, 64000, 5000, 3200 },
};

static struct second_text read_section(const char *session, const char *transport, const char *lines)
{
    char text[200];

    snprintf(text, sizeof text, V C "%sm=video 40000 %s 0\n%s", session, transport, lines);
    return read_copy(text, strlen(text));
}

static struct second_component derive(uint64_t origin, const struct second_text *offer,
    const struct second_text *answer)
{
    static const struct second_before before;

    assert(offer->refusal == 0 && answer->refusal == 0);
    return second_derive(&settings, origin, &before, second_sections(offer), second_sections(answer)).components[0];
}

static void check_rates(const struct second_component *component, uint64_t media_up, uint64_t media_down,
    uint64_t rtcp_up, uint64_t rtcp_down)
{
    assert(component->up.media == media_up && component->down.media == media_down);
    assert(component->up.rtcp == rtcp_up && component->down.rtcp == rtcp_down);
}

static void test_exchanges(void)
{
    for (size_t i = 0; i < sizeof exchange_trials / sizeof exchange_trials[0]; i++) {
        const struct exchange_trial *trial = &exchange_trials[i];
        struct second_text offer = read_section("b=TIAS:7\nb=AS:x\n", "RTP/AVP", trial->offer),
            answer = read_section("", "RTP/AVP", trial->answer);
        struct second_component component = derive(0, &offer, &answer);
        check_rates(&component, trial->media_up, trial->media_down, trial->rtcp_up, trial->rtcp_down);
        tests++;
    }
}

/* The network offered: the offer is the downlink SDP. One way, over udp, and removed. */
static void test_ways(void)
{
    static const char gone[] = V "m=video 0 RTP/AVP 0\nb=TIAS:64001\n";
    struct second_text offer = read_section("", "RTP/AVP", "b=TIAS:64001\n"),
        answer = read_section("", "RTP/AVP", "b=TIAS:40001\na=sendonly\n"),
        udp = read_section("", "udp", "b=TIAS:64001\n"), removed = read_copy(gone, strlen(gone));
    struct second_component component = derive(1, &offer, &answer);

    assert(component.status == 0);
    check_rates(&component, 64001, 0, 3201, 2001);
    component = derive(0, &offer, &answer);
    assert(component.status == 1);
    check_rates(&component, 0, 64001, 2001, 3201);
    component = derive(0, &udp, &udp);
    check_rates(&component, 64001, 64001, 0, 0);
    component = derive(0, &removed, &removed);
    assert(component.status == 4);
    check_rates(&component, 0, 0, 0, 0);
    tests++;
}

/* Any 32 bits that a host gives: the least RTCP rate whose twentyfold is not below it. */
static void check_twentieth(uint32_t rate)
{
    static const struct second_before before;
    struct second_media media = { .kind = 2, .transport = 1, .direction = 1, .port = 1, .has_requested = 1,
        .requested = rate };
    struct second_sections sections = { 1, &media };
    struct second_state state = second_derive(&settings, 0, &before, sections, sections);
    const struct second_way *up = &state.components[0].up;

    assert(up->media == rate && 20 * up->rtcp >= rate && 20 * up->rtcp < (uint64_t)rate + 20);
    assert(state.components[0].down.rtcp == up->rtcp);
}

static void test_twentieths(void)
{
    uint64_t seed = 10;

    for (uint32_t i = 0; i < 1000; i++) {
        check_twentieth(i);
        check_twentieth(UINT32_MAX - i);
        check_twentieth(0x7ffffe00u + i);
        check_twentieth((uint32_t)second_draw(&seed));
    }
    tests++;
}

static void test_refused_lines(void)
{
    static const char good[] = V C L "b=TIAS:64001\n", doubled[] = V C L "b=AS:1\nb=TIAS:1\nb=TIAS:1\n";
    const uint8_t *first = (const uint8_t *)good, *then = (const uint8_t *)doubled;
    struct second_decision decision = second_deciding_line(first, strlen(good), then, strlen(doubled), 1);

    assert(decision.refusal == 7 && decision.place == 6 && decision.failed == 2 && decision.end == 0);
    decision = second_deciding_line(then, strlen(doubled), first, strlen(good), 1);
    assert(decision.refusal == 7 && decision.place == 6 && decision.failed == 1 && decision.end == 0);
    decision = second_deciding_line(first, strlen(good), first, strlen(good), 1);
    assert(decision.refusal == 0 && decision.text == 2 && decision.end - decision.start == strlen(L) - 1);
    tests++;
}

int main(void)
{
    RUN(good_trials);
    RUN(near_trials);
    RUN(bad_trials);
    test_exchanges();
    test_ways();
    test_twentieths();
    test_refused_lines();
    printf("second: %u tests of the requested rate passed\n", tests);
    return 0;
}
