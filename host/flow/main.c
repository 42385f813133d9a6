#include "../shared/options.h"
#include "compare.h"
#include "runs.h"

#include <stdio.h>
#include <stdlib.h>
#include <string.h>

/* The paper's cases, with its settings: what both must give for component 1. */

#define FIRST "v=0\nc=IN IP4 192.0.2.1\nm=audio 40000 RTP/AVP 0\nb=AS:64\n"
#define ANSWER "v=0\nc=IN IP4 192.0.2.9\nm=audio 50000 RTP/AVP 0\n"
#define FIRST_UNDER(lines) "v=0\n" lines "c=IN IP4 192.0.2.1\nm=audio 40000 RTP/AVP 0\nb=AS:64\n"
#define ANSWER_UNDER(lines) "v=0\n" lines "c=IN IP4 192.0.2.9\nm=audio 50000 RTP/AVP 0\n"
#define LARGE "v=0\nc=IN IP4 192.0.2.1\nm=audio 40000 RTP/AVP 0\nb=AS:300000\n"
#define TIAS(lines) "v=0\nc=IN IP4 192.0.2.1\nm=audio 40000 RTP/AVP 0\nb=TIAS:64001\n" lines
#define NONE "v=0\nm=audio 0 RTP/AVP 0\n"

static const struct known {
    int go_on;
    const char *offer, *answer;
    uint64_t status, class_number, media_up, media_down, rtcp_up, rtcp_down;
} knowns[] = {
    { 0, FIRST, ANSWER, 2, 2, 100000, 64000, 5000, 3200 },
    { 1, NONE, NONE, 4, 0, 0, 0, 0, 0 },
    { 1, NONE, NONE, 4, 0, 0, 0, 0, 0 },
    { 0, FIRST, ANSWER "b=RS:800\nb=RR:2400\n", 2, 2, 100000, 64000, 3200, 3200 },
    { 0, FIRST, ANSWER "b=RS:800\n", 2, 2, 100000, 64000, 5000, 3200 },
    { 0, FIRST, ANSWER "b=RR:8000\n", 2, 2, 100000, 64000, 5000, 8000 },
    { 0, FIRST "a=inactive\n", ANSWER "a=sendrecv\n", 3, 2, 100000, 64000, 5000, 3200 },
    { 0, FIRST "a=sendonly\n", ANSWER "a=recvonly\n", 0, 4, 100000, 0, 5000, 3200 },
    { 0, FIRST, ANSWER, 2, 2, 100000, 64000, 5000, 3200 },
    { 1, FIRST "a=sendonly\n", ANSWER "a=recvonly\n", 0, 2, 100000, 64000, 5000, 3200 },
    { 0, LARGE, ANSWER, 2, 2, 100000, 300000000, 5000, 15000000 },
    /* 02, request 1: f, g and h with directions of the session section, and an own one over it */
    { 0, FIRST_UNDER("a=inactive\n"), ANSWER "a=sendrecv\n", 3, 2, 100000, 64000, 5000, 3200 },
    { 0, FIRST_UNDER("a=inactive\n") "a=sendrecv\n", ANSWER_UNDER("a=sendrecv\n"), 2, 2, 100000, 64000, 5000, 3200 },
    { 0, FIRST_UNDER("a=sendonly\n"), ANSWER_UNDER("a=recvonly\n"), 0, 4, 100000, 0, 5000, 3200 },
    { 0, FIRST, ANSWER, 2, 2, 100000, 64000, 5000, 3200 },
    { 1, FIRST_UNDER("a=sendonly\n"), ANSWER_UNDER("a=recvonly\n"), 0, 2, 100000, 64000, 5000, 3200 },
    /* 02, request 7: TIAS alone, its twentieth rounded up, beside RS too; AS decides, in either order, AS:0 too */
    { 0, TIAS(""), ANSWER, 2, 2, 100000, 64001, 5000, 3201 },
    { 0, TIAS(""), ANSWER "b=RS:3200\n", 2, 2, 100000, 64001, 5000, 3201 },
    { 0, TIAS("b=AS:64\n"), ANSWER "b=AS:0\nb=TIAS:64001\n", 2, 2, 0, 64000, 0, 3200 },
    { 0, FIRST "b=TIAS:1\n", ANSWER "b=TIAS:0\n", 2, 2, 0, 64000, 0, 3200 },
};

static void run_known(uint64_t *seed)
{
    static const struct sides fresh;
    struct sides sides;

    for (size_t i = 0; i < sizeof knowns / sizeof knowns[0]; i++) {
        const struct known *known = &knowns[i];
        const struct frumxadda_component *component = &sides.proved.components[0];
        const struct frumxadda_way *up = &component->up, *down = &component->down;
        struct exchange exchange = { { { 100000, 100000 }, { 5000, 5000 }, { 0, 0 } }, 0, (const uint8_t *)known->offer,
            (const uint8_t *)known->answer, strlen(known->offer), strlen(known->answer) };
        if (!known->go_on)
            sides = fresh;
        uint64_t refusal = compare_exchange(&exchange, &sides, seed);
        if (refusal == 0 && component->status == known->status && component->class_number == known->class_number
            && up->media == known->media_up && down->media == known->media_down && up->rtcp == known->rtcp_up
            && down->rtcp == known->rtcp_down)
            continue;
        printf("known exchange %zu: both differ from the paper\n", i + 1);
        exit(1);
    }
}

int main(int argc, char **argv)
{
    uint64_t seed = 1;
    unsigned long count = 20000;
    int status = 0;

    read_options("flow_host", argc, argv, &seed, &count);
    compare_start();
    run_known(&seed);
    run_values(&seed, count);
    run_product(&seed);
    run_misfits(&seed);
    run_generated(&seed, count);
    run_wild(&seed, count);
    for (int number = 0; number < REFUSAL_NUMBERS; number++) {
        if (number > 10 && number != 15 && number != 17 && number != 18)
            continue;
        printf("refusal %d: %lu\n", number, seen[number]);
        if (seen[number] == 0)
            status = 1;
    }
    printf("host: %lu exchanges and %lu derivations compared, 0 differences\n", exchanges_compared, derivations_compared);
    return status;
}
