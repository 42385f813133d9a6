#include "compare.h"
#include "print.h"
#include "runs.h"

#include <inttypes.h>
#include <stdio.h>
#include <stdlib.h>
#include <string.h>

#define FIRST "v=0\nc=IN IP4 192.0.2.1\nm=audio 40000 RTP/AVP 0\nb=AS:64\n"
#define ANSWER "v=0\nc=IN IP4 192.0.2.9\nm=audio 50000 RTP/AVP 0\n"
#define FIRST_UNDER(lines) "v=0\n" lines "c=IN IP4 192.0.2.1\nm=audio 40000 RTP/AVP 0\nb=AS:64\n"
#define ANSWER_UNDER(lines) "v=0\n" lines "c=IN IP4 192.0.2.9\nm=audio 50000 RTP/AVP 0\n"
#define TIAS "v=0\nc=IN IP4 192.0.2.1\nm=audio 40000 RTP/AVP 0\nb=TIAS:64001\n"
#define LARGE "v=0\nc=IN IP4 192.0.2.1\nm=audio 40000 RTP/AVP 0\nb=AS:300000\n"
#define PORT(port) "v=0\nc=IN IP4 192.0.2.1\nm=audio " port "\n"
#define NONE "v=0\nm=audio 0 RTP/AVP 0\n"
#define EMPTY "v=0\n"
#define BAD "v=1\n"
#define TOP 4294967295u

/* A call of session 0 and its answer; a fresh book comes before each case. */
static const struct known {
    const char *name; /* where a case begins */
    enum second_letter letter;
    const char *text; /* of an offer or an answer, or the statement */
    uint64_t figures[4]; /* a bearer's set, class, up, down; an answer's pool up, down; an offer's origin; a statement's room */
    uint64_t refusal, place;
    int64_t change_up, change_down;
    uint64_t class_number, up, down;
} knowns[] = {
#define O(text, refusal, place) NULL, SECOND_OFFER, text, { 0 }, refusal, place, 0, 0, 0, 0, 0
#define OFFERED(text) O(text, 0, 0)
#define A(text, pool_up, pool_down, refusal, place, up, down) \
    NULL, SECOND_ANSWER, text, { pool_up, pool_down }, refusal, place, up, down, 0, 0, 0
#define ANSWERED(text, up, down) A(text, 1000000, 1000000, 0, 0, up, down)
#define MISFIT(text, place) A(text, 1000000, 1000000, 15, place, 0, 0)
#define B(set, asked_class, asked_up, asked_down, refusal, class_number, up, down) \
    NULL, SECOND_BEARER, NULL, { set, asked_class, asked_up, asked_down }, refusal, 0, 0, 0, class_number, up, down
#define X(refusal, up, down) NULL, SECOND_CLOSE, NULL, { 0 }, refusal, 0, up, down, 0, 0, 0
#define C(refusal) NULL, SECOND_CANCEL, NULL, { 0 }, refusal, 0, 0, 0, 0, 0, 0
#define S(text, room, refusal) NULL, SECOND_STATEMENT, text, { room }, refusal, 0, 0, 0, 0, 0, 0
#define ONE(line) S("components 1\n" line "\n", sizeof("components 1\n" line), 0)
#define CASE(name) { name, SECOND_LETTERS, NULL, { 0 }, 0, 0, 0, 0, 0, 0, 0 }
    CASE("the evening example"), { OFFERED(FIRST) }, { ANSWERED(ANSWER, 105000, 67200) },
    { B(1, 2, 105000, 67200, 0, 2, 105000, 67200) }, { B(1, 2, 105001, 67200, 17, 2, 105000, 67200) },
    { X(0, -105000, -67200) }, { X(13, 0, 0) },
    CASE("a and b"), { OFFERED(FIRST) }, { ANSWERED(ANSWER, 105000, 67200) },
    { ONE("1 audio 2 2 100000 64000 5000 3200") },
    { OFFERED(NONE) }, { ANSWERED(NONE, -105000, -67200) }, { OFFERED(NONE) }, { ANSWERED(NONE, 0, 0) },
    { ONE("1 audio 4 0 0 0 0 0") },
    CASE("c"), { OFFERED(FIRST) }, { ANSWERED(ANSWER "b=RS:800\nb=RR:2400\n", 103200, 67200) },
    { ONE("1 audio 2 2 100000 64000 3200 3200") },
    CASE("d"), { OFFERED(FIRST) }, { ANSWERED(ANSWER "b=RS:800\n", 105000, 67200) },
    { ONE("1 audio 2 2 100000 64000 5000 3200") },
    CASE("e"), { OFFERED(FIRST) }, { ANSWERED(ANSWER "b=RR:8000\n", 105000, 72000) },
    { ONE("1 audio 2 2 100000 64000 5000 8000") },
    CASE("f"), { OFFERED(FIRST "a=inactive\n") }, { ANSWERED(ANSWER "a=sendrecv\n", 105000, 67200) },
    { ONE("1 audio 3 2 100000 64000 5000 3200") },
    CASE("g"), { OFFERED(FIRST "a=sendonly\n") }, { ANSWERED(ANSWER "a=recvonly\n", 105000, 3200) },
    { ONE("1 audio 0 4 100000 0 5000 3200") },
    CASE("h"), { OFFERED(FIRST) }, { ANSWERED(ANSWER, 105000, 67200) },
    { OFFERED(FIRST "a=sendonly\n") }, { ANSWERED(ANSWER "a=recvonly\n", 0, 0) },
    { ONE("1 audio 0 2 100000 64000 5000 3200") },
    CASE("i"), { O(PORT("65535 RTP/AVP 0"), 3, 3) }, { O(PORT("40000 RTP/AVP 0\nb=AS:4294968"), 7, 4) },
    { OFFERED(PORT("65534 RTP/AVP 0\nb=AS:4294967")) }, { C(0) }, { OFFERED(PORT("65535 udp 0")) }, { C(0) },
    CASE("j"), { OFFERED(FIRST) }, { A(ANSWER, 104999, 1000000, 16, 0, 0, 0) },
    { A(ANSWER, 105000, 67199, 16, 0, 0, 0) }, { A(ANSWER, 105000, 67200, 0, 0, 105000, 67200) },
    CASE("k"), { OFFERED(LARGE) }, { A(ANSWER, TOP, TOP, 0, 0, 105000, 315000000) },
    { B(1, 2, 105000, 256000000, 0, 2, 105000, 256000000) }, { B(1, 2, 105000, 256000001, 17, 2, 105000, 256000000) },
    CASE("l"), { OFFERED(FIRST) }, { ANSWERED(ANSWER, 105000, 67200) },
    { S("components 1\n1 audio 2 2 100000 64000 5000 3200\n", 48, 0) },
    { S("components 1\n1 audio 2 2 100000 64000 5000 3200\n", 47, 20) },
    CASE("hold for the whole call"), { O(FIRST_UNDER("a=sendonly\na=sendonly\n"), 8, 3) },
    { OFFERED(FIRST_UNDER("a=sendonly\n")) }, { A(ANSWER_UNDER("a=recvonly\na=x\na=inactive\n"), 0, 0, 8, 4, 0, 0) },
    { ANSWERED(ANSWER_UNDER("a=recvonly\n"), 105000, 3200) }, { ONE("1 audio 0 4 100000 0 5000 3200") },
    { OFFERED(FIRST_UNDER("a=inactive\n") "a=sendrecv\n") }, { ANSWERED(ANSWER, 0, 64000) },
    { ONE("1 audio 2 2 100000 64000 5000 3200") },
    { OFFERED(FIRST_UNDER("a=inactive\n")) }, { ANSWERED(ANSWER, 0, 0) }, { ONE("1 audio 3 2 100000 64000 5000 3200") },
    CASE("TIAS"), { O(TIAS "b=TIAS:64001\n", 7, 5) }, { O(FIRST "b=TIAS:4294967296\n", 7, 5) }, { OFFERED(TIAS) },
    { A(ANSWER, 105000, 67201, 16, 0, 0, 0) }, { A(ANSWER, 105000, 67202, 0, 0, 105000, 67202) },
    { ONE("1 audio 2 2 100000 64001 5000 3201") }, { OFFERED(TIAS "b=AS:64\n") }, { ANSWERED(ANSWER "b=TIAS:1\n", -104998, -2) },
    { ONE("1 audio 2 2 1 64000 1 3200") },
    CASE("orders"), { A(BAD, 0, 0, 12, 0, 0, 0) }, { C(12) }, { X(13, 0, 0) }, { B(0, 2, 0, 0, 13, 0, 0, 0) },
    { B(0, 3, 0, 0, 10, 0, 0, 0) }, { S("", 0, 13) }, { O(BAD, 2, 1) }, { OFFERED(FIRST) }, { O(BAD, 11, 0) },
    { X(11, 0, 0) }, { A(BAD, 0, 0, 2, 1, 0, 0) }, { A(EMPTY, 0, 0, 15, 0, 0, 0) }, { MISFIT(PORT("5 udp 0"), 1) },
    { A(ANSWER, 0, 0, 16, 0, 0, 0) }, { ANSWERED(ANSWER, 105000, 67200) }, { O(EMPTY, 14, 0) }, { O("v=0\nx", 2, 2) },
    { B(0, 9, TOP, TOP, 18, 0, 0, 0) }, { B(3, 9, TOP, TOP, 18, 0, 0, 0) },
    { B((uint64_t)1 << 63 | 1, 9, TOP, TOP, 18, 0, 0, 0) }, { OFFERED(NONE) }, { B(1, 2, 0, 0, 0, 2, 105000, 67200) },
    { X(11, 0, 0) }, { C(0) }, { X(0, -105000, -67200) }, { OFFERED(EMPTY) }, { ANSWERED(EMPTY, 0, 0) },
    { S("components 0\n", 13, 0) }, { B(1, 2, 0, 0, 18, 0, 0, 0) }, { X(0, 0, 0) },
};

static struct second_ask known_ask(const struct known *known)
{
    bool texts = known->letter == SECOND_OFFER || known->letter == SECOND_ANSWER;

    return (struct second_ask) {
        .letter = known->letter, .settings = { 100000, 100000, 5000, 5000 },
        .pool = { (uint32_t)known->figures[0], (uint32_t)known->figures[1] },
        .asked = { known->figures[0], known->figures[1], known->figures[2], known->figures[3] },
        .text = texts ? (const uint8_t *)known->text : NULL, .len = texts ? strlen(known->text) : 0,
        .room = (size_t)known->figures[0],
    };
}

static bool as_known(const struct known *known, const struct second_reply *reply)
{
    size_t length = known->letter == SECOND_STATEMENT ? strlen(known->text) : 0;

    return reply->refusal == known->refusal && reply->place == known->place && reply->change_up == known->change_up
        && reply->change_down == known->change_down && reply->class_number == known->class_number
        && reply->up == known->up && reply->down == known->down && reply->length == length
        && (reply->refusal != 0 || memcmp(last_statement, length ? known->text : "", length) == 0);
}

static void must(bool good, const char *name)
{
    if (good)
        return;
    printf("case %s: both differ from the paper\n", name);
    exit(1);
}

static void check_closed(const struct frumxadda_component *component, const char *name)
{
    struct frumxadda_open_gates gates = frumxadda_gates(*component);

    if (component->status >= 3)
        must(gates.media_up + gates.media_down + gates.rtcp_up + gates.rtcp_down == 0, name);
}

/* Numbers of rows and sessions that are refused, and that this comes before 19. */
static void run_unknown(void)
{
    static const uint64_t sessions[] = { 0, 1, 15, 16, 17, (uint64_t)1 << 32, UINT64_MAX };
    struct frumxadda_row bad = { .held = { .completed = 2 } };
    static struct books books;

    for (uint64_t count = 0; count <= ROWS_ROOM; count++) {
        for (unsigned i = 0; i < 7 * 2 * SECOND_LETTERS; i++) {
            struct second_ask ask = { .letter = i % SECOND_LETTERS, .session = sessions[i / SECOND_LETTERS % 7] };
            bool known = count >= 1 && count <= SECOND_BOOK_ROWS && ask.session < count, sound = i < 7 * SECOND_LETTERS;
            fresh_books(&books, count);
            if (!sound && count > 0)
                set_row(&books, count / 2, &bad);
            ask.asked.class_number = 2;
            uint64_t refusal = compare_call(&books, &ask).refusal;
            must(!known ? refusal == 10 : !sound && count > 0 ? refusal == 19 : refusal != 10, "of unknown sessions");
            ask.asked.class_number = 3;
            ask.origin = 2;
            refusal = compare_call(&books, &ask).refusal;
            must(ask.letter % 4 != 0 || refusal == 10, "of unknown origins and classes");
        }
    }
}

void run_known(void)
{
    const char *name = "";
    static struct books books;

    for (size_t i = 0; i < sizeof knowns / sizeof knowns[0]; i++) {
        const struct known *known = &knowns[i];
        if (known->name) {
            name = known->name;
            fresh_books(&books, SECOND_BOOK_ROWS);
            continue;
        }
        struct second_ask ask = known_ask(known);
        struct second_reply reply = compare_call(&books, &ask);
        if (!as_known(known, &reply)) {
            print_call(&ask, books.count);
            must(false, name);
        }
        check_closed(&books.proved[0].held.components[0], name);
    }
    run_unknown();
}
