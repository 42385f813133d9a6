#undef NDEBUG
#include "../generate/book.h"
#include "../generate/draw.h"
#include "../generate/row.h"
#include "../server/book.h"
#include "../server/number.h"
#include "../server/statement.h"

#include <assert.h>
#include <inttypes.h>
#include <stdio.h>
#include <stdlib.h>
#include <string.h>

#define OFFERED "v=0\nc=IN IP4 192.0.2.1\n"
#define ANSWERED "v=0\nc=IN IP4 192.0.2.9\n"
#define FIRST OFFERED "m=audio 40000 RTP/AVP 0\nb=AS:64\n"
#define ANSWER ANSWERED "m=audio 50000 RTP/AVP 0\n"
#define LARGE OFFERED "m=audio 40000 RTP/AVP 0\nb=AS:300000\n"
#define TIAS OFFERED "m=video 40000 RTP/AVP 0\nb=TIAS:64001\n"
#define TIAS_ANSWER ANSWERED "m=video 50000 RTP/AVP 0\n"
#define REMOVED "v=0\nm=audio 0 RTP/AVP 0\n"
#define EMPTY "v=0\n"
#define BAD "v=1\n"

static const struct second_settings settings = { 100000, 100000, 5000, 5000 };
static const struct second_pool usual = { 1000000, 1000000 };
static const struct second_pool large = { 4294967295u, 4294967295u };
static const struct second_reply nothing;
static unsigned tests;

/* The book under test, and one row more than may be lent. */
static struct second_row rows[SECOND_BOOK_ROWS + 1];
static struct second_book book = { rows, SECOND_BOOK_ROWS };

static void fresh_book(void)
{
    memset(rows, 0, sizeof rows);
    book.count = SECOND_BOOK_ROWS;
}

static bool same(struct second_reply one, struct second_reply other)
{
    return memcmp(&one, &other, sizeof one) == 0;
}

/* A copy of exactly its length, so that the sanitizer sees any byte read past it. */
static uint8_t *copy_text(const char *text)
{
    uint8_t *copy = malloc(strlen(text) + 1);

    memcpy(copy, text, strlen(text));
    return realloc(copy, strlen(text) ? strlen(text) : 1);
}

static struct second_reply offer_from(uint64_t session, uint64_t origin, const char *text)
{
    uint8_t *copy = copy_text(text);
    struct second_reply reply = second_offer(book, session, origin, copy, strlen(text));

    free(copy);
    return reply;
}

static struct second_reply offer(const char *text)
{
    return offer_from(0, 0, text);
}

static struct second_reply answer_within(struct second_pool pool, uint64_t session, const char *text)
{
    uint8_t *copy = copy_text(text);
    struct second_reply reply = second_answer(book, &settings, pool, session, copy, strlen(text));

    free(copy);
    return reply;
}

static struct second_reply answer(const char *text)
{
    return answer_within(usual, 0, text);
}

static struct second_reply bearer(uint64_t set, uint64_t class_number, uint64_t up, uint64_t down)
{
    struct second_asked asked = { set, class_number, up, down };

    return second_bearer(book, 0, &asked);
}

static struct second_reply refused(uint64_t refusal, uint64_t place)
{
    return (struct second_reply) { .refusal = refusal, .place = place };
}

static struct second_reply changed(int64_t up, int64_t down)
{
    return (struct second_reply) { .change_up = up, .change_down = down };
}

static struct second_reply granted(uint64_t refusal, uint64_t class_number, uint64_t up, uint64_t down)
{
    return (struct second_reply) { .refusal = refusal, .class_number = class_number, .up = up, .down = down };
}

static void exchange(const char *first, const char *then)
{
    assert(same(offer(first), nothing));
    assert(answer(then).refusal == 0);
}

static void fresh_exchange(const char *first, const char *then)
{
    fresh_book();
    exchange(first, then);
}

static void check_total(uint64_t up, uint64_t down)
{
    struct second_rates total = { 0, 0 };

    for (unsigned i = 0; i < SECOND_BOOK_ROWS; i++) {
        struct second_rates booked = second_booked(&rows[i]);
        total.up += booked.up;
        total.down += booked.down;
    }
    assert(total.up == up && total.down == down);
}

/* Written with no room to spare, refused with one byte less, and bytes past its end stay. */
static void check_statement(const char *expected)
{
    size_t len = strlen(expected);
    uint8_t *exact = malloc(len), more[SECOND_STATEMENT_BYTES + 8];

    memset(exact, 'x', len);
    assert(same(second_statement(book, 0, exact, len), (struct second_reply) { .length = len }));
    assert(memcmp(exact, expected, len) == 0);
    memset(exact, 'x', len);
    assert(same(second_statement(book, 0, exact, len - 1), (struct second_reply) { .refusal = 20, .length = len }));
    for (size_t i = 0; i < len; i++)
        assert(exact[i] == 'x');
    memset(more, 'x', sizeof more);
    assert(second_statement(book, 0, more, sizeof more).length == len && memcmp(more, expected, len) == 0);
    for (size_t i = len; i < sizeof more; i++)
        assert(more[i] == 'x');
    free(exact);
}

static void check_component(const char *line)
{
    char statement[80];

    snprintf(statement, sizeof statement, "components 1\n%s\n", line);
    check_statement(statement);
}

static void test_evening_example(void)
{
    fresh_book();
    assert(same(offer(FIRST), nothing));
    assert(same(answer(ANSWER), changed(105000, 67200)));
    assert(same(bearer(1, 2, 105000, 67200), granted(0, 2, 105000, 67200)));
    assert(same(bearer(1, 2, 105001, 67200), granted(17, 2, 105000, 67200)));
    check_total(105000, 67200);
    assert(same(second_close(book, 0), changed(-105000, -67200)));
    assert(same(second_close(book, 0), refused(13, 0)));
    check_total(0, 0);
    tests++;
}

static void test_cases_a_to_e(void)
{
    fresh_exchange(FIRST, ANSWER);
    check_total(105000, 67200);
    assert(rows[0].kept == 2);
    check_component("1 audio 2 2 100000 64000 5000 3200");
    assert(same(offer(REMOVED), nothing) && same(answer(REMOVED), changed(-105000, -67200)));
    assert(same(offer(REMOVED), nothing) && same(answer(REMOVED), changed(0, 0)));
    check_component("1 audio 4 0 0 0 0 0");
    assert(rows[0].kept == 2);
    fresh_exchange(FIRST, ANSWER "b=RS:800\nb=RR:2400\n");
    check_component("1 audio 2 2 100000 64000 3200 3200");
    fresh_exchange(FIRST, ANSWER "b=RS:800\n");
    check_component("1 audio 2 2 100000 64000 5000 3200");
    fresh_exchange(FIRST, ANSWER "b=RR:8000\n");
    check_component("1 audio 2 2 100000 64000 5000 8000");
    tests++;
}

static void test_cases_f_g_h(void)
{
    fresh_exchange(FIRST "a=inactive\n", ANSWER "a=sendrecv\n");
    check_component("1 audio 3 2 100000 64000 5000 3200");
    struct second_gates gates = second_gates(&rows[0].components[0]);
    assert(gates.media_up + gates.media_down + gates.rtcp_up + gates.rtcp_down == 0);
    check_total(105000, 67200);
    fresh_exchange(FIRST "a=sendonly\n", ANSWER "a=recvonly\n");
    check_component("1 audio 0 4 100000 0 5000 3200");
    fresh_exchange(FIRST, ANSWER);
    assert(same(offer(FIRST "a=sendonly\n"), nothing) && same(answer(ANSWER "a=recvonly\n"), changed(0, 0)));
    check_component("1 audio 0 2 100000 64000 5000 3200");
    tests++;
}

#define WHOLE(direction) OFFERED "a=" direction "\nm=audio 40000 RTP/AVP 0\nb=AS:64\n"
#define WHOLE_ANSWER(direction) ANSWERED "a=" direction "\nm=audio 50000 RTP/AVP 0\n"

/* Cases f, g and h with the direction in the session section (02, request 1), and 8 for a second one there. */
static void test_whole_call(void)
{
    fresh_exchange(WHOLE("inactive"), ANSWER "a=sendrecv\n");
    check_component("1 audio 3 2 100000 64000 5000 3200");
    check_total(105000, 67200);
    fresh_exchange(WHOLE("sendonly"), WHOLE_ANSWER("recvonly"));
    check_component("1 audio 0 4 100000 0 5000 3200");
    fresh_exchange(FIRST, ANSWER);
    assert(same(offer(WHOLE("sendonly")), nothing) && rows[0].offer[0].direction == 2);
    assert(same(answer(WHOLE_ANSWER("recvonly\na=recvonly")), refused(8, 4)) && rows[0].present == 1);
    assert(same(answer(WHOLE_ANSWER("recvonly")), changed(0, 0)));
    check_component("1 audio 0 2 100000 64000 5000 3200");
    assert(same(offer(WHOLE("sendrecv\na=inactive")), refused(8, 4)) && rows[0].present == 0);
    assert(same(offer(EMPTY "a=sendrecv\na=sendrecv\n"), refused(8, 3)));
    tests++;
}

/* A client that writes TIAS and no AS (02, request 7): the open offer keeps one rate, and RTCP is rounded up. */
static void test_tias(void)
{
    fresh_book();
    assert(same(offer(TIAS "b=TIAS:64001\n"), refused(7, 5)) && same(offer(TIAS "b=AS:4294968\n"), refused(7, 5)));
    assert(rows[0].present == 0);
    assert(same(offer(TIAS), nothing) && rows[0].offer[0].requestedgiven == 1 && rows[0].offer[0].requested == 64001);
    assert(same(answer(TIAS_ANSWER "b=TIAS:4294967296\n"), refused(7, 4)));
    assert(same(answer(TIAS_ANSWER "b=TIAS:1\nb=AS:1\nb=TIAS:1\n"), refused(7, 6)) && rows[0].present == 1);
    assert(same(answer_within((struct second_pool) { 105000, 67201 }, 0, TIAS_ANSWER), refused(16, 0)));
    assert(same(answer_within((struct second_pool) { 105000, 67202 }, 0, TIAS_ANSWER), changed(105000, 67202)));
    check_component("1 video 2 2 100000 64001 5000 3201");
    assert(same(bearer(1, 2, 105000, 67202), granted(0, 2, 105000, 67202)));
    assert(same(bearer(1, 2, 105000, 67203), granted(17, 2, 105000, 67202)));
    assert(same(offer(TIAS "b=AS:64\n"), nothing) && rows[0].offer[0].requested == 64000);
    assert(same(answer(TIAS_ANSWER "b=RS:3201\n"), changed(0, -1)));
    check_component("1 video 2 2 100000 64000 5000 3201");
    assert(same(offer(OFFERED "b=TIAS:1\nm=video 40000 RTP/AVP 0\n"), nothing) && rows[0].offer[0].requestedgiven == 0);
    assert(same(answer(TIAS_ANSWER "b=TIAS:0\n"), changed(-105000, 105000 - 67201)));
    check_component("1 video 2 2 0 100000 0 5000");
    tests++;
}

/* A lent row whose open offer requests any 32 bits. */
static void test_lent_requested(void)
{
    static const uint32_t rates[] = { 0, 1, 4294967, 4294968, 4294967276u, 4294967295u };

    for (unsigned i = 0; i < 6; i++) {
        fresh_book();
        assert(same(offer(TIAS), nothing));
        rows[0].offer[0].requested = rates[i];
        assert(answer_within(large, 0, TIAS_ANSWER "b=RS:0\nb=RR:0\n").change_down == rates[i]);
        assert(rows[0].components[0].down.media == rates[i] && rows[0].components[0].down.rtcp == 0);
    }
    tests++;
}

static void test_case_i(void)
{
    fresh_book();
    assert(same(offer(OFFERED "m=audio 40000 RTP/AVP 0\nb=AS:4294968\n"), refused(7, 4)));
    assert(same(offer(OFFERED "m=audio 65535 RTP/AVP 0\n"), refused(3, 3)));
    assert(same(offer(OFFERED "m=audio 65534 RTP/AVP 0\nb=AS:4294967\n"), nothing));
    assert(same(answer_within(large, 0, ANSWERED "m=audio 65534 RTP/AVP 0\nb=RS:0\nb=RR:0\n"),
        changed(100000, 4294967000)));
    assert(second_rtcp_destinations(&rows[0].components[0]).up.port == 65535 && second_in_range(&rows[0]));
    fresh_exchange(OFFERED "m=audio 65535 udp 0\n", ANSWERED "m=audio 65535 udp 0\n");
    assert(second_in_range(&rows[0]));
    tests++;
}

static void test_case_j(void)
{
    struct second_pool full = { 105000, 67200 };

    fresh_book();
    assert(same(offer(FIRST), nothing));
    assert(same(answer_within((struct second_pool) { 104999, 67200 }, 0, ANSWER), refused(16, 0)));
    assert(same(answer_within((struct second_pool) { 105000, 67199 }, 0, ANSWER), refused(16, 0)));
    assert(rows[0].present == 1 && rows[0].completed == 0);
    assert(same(answer_within(full, 0, ANSWER), changed(105000, 67200)));
    assert(same(offer_from(3, 1, REMOVED), nothing) && same(answer_within(full, 3, REMOVED), changed(0, 0)));
    /* A total above the pool is 16 also where the change is zero or negative. */
    assert(same(offer(FIRST), nothing));
    assert(same(answer_within((struct second_pool) { 104999, 67200 }, 0, ANSWER), refused(16, 0)));
    assert(same(second_cancel(book, 0), nothing));
    assert(same(offer_from(3, 0, REMOVED), nothing));
    assert(same(answer_within((struct second_pool) { 0, 0 }, 3, REMOVED), refused(16, 0)));
    assert(same(second_close(book, 0), changed(-105000, -67200)));
    assert(same(answer_within((struct second_pool) { 0, 0 }, 3, REMOVED), changed(0, 0)));
    tests++;
}

static void test_cases_k_l(void)
{
    fresh_book();
    assert(same(offer(LARGE), nothing) && same(answer_within(large, 0, ANSWER), changed(105000, 315000000)));
    assert(same(bearer(1, 2, 105000, 256000000), granted(0, 2, 105000, 256000000)));
    assert(same(bearer(1, 2, 105000, 256000001), granted(17, 2, 105000, 256000000)));
    fresh_exchange(FIRST, ANSWER);
    check_statement("components 1\n1 audio 2 2 100000 64000 5000 3200\n");
    fresh_exchange(EMPTY, EMPTY);
    check_statement("components 0\n");
    tests++;
}

static void test_longest_statement(void)
{
    char expected[SECOND_STATEMENT_BYTES + 1] = "components 8\n";

    fresh_book();
    rows[0].completed = 1;
    rows[0].count = 8;
    for (unsigned i = 0; i < 8; i++) {
        struct second_way way = { .media = 4294967295u, .rtcp = 8589934590u };
        rows[0].components[i] = (struct second_component) { 3, 1, 4, 9, way, way };
        size_t len = strlen(expected);
        snprintf(expected + len, sizeof expected - len,
            "%u application 4 9 4294967295 4294967295 8589934590 8589934590\n", i + 1);
    }
    assert(strlen(expected) == SECOND_STATEMENT_BYTES);
    check_statement(expected);
    tests++;
}

static void check_number(uint64_t number)
{
    uint8_t digits[21];
    char expected[21];

    memset(digits, 'x', sizeof digits);
    int len = snprintf(expected, sizeof expected, "%" PRIu64, number);
    assert(second_put_number(digits, number) == digits + len && digits[len] == 'x');
    assert(memcmp(digits, expected, (size_t)len) == 0);
}

static void test_numbers(void)
{
    uint64_t seed = 8;

    for (uint64_t power = 1; power <= UINT64_MAX / 10; power *= 10)
        for (uint64_t i = 0; i < 21; i++)
            check_number(10 * power - 10 + i);
    for (uint64_t i = 0; i < 2000; i++)
        check_number(i < 1000 ? i : second_draw(&seed) >> i % 64);
    check_number(UINT64_MAX);
    tests++;
}

/* Every call with that session, with nothing wrong of its own. */
static struct second_reply call(enum second_letter letter, uint64_t session)
{
    uint8_t out[SECOND_STATEMENT_BYTES];
    struct second_ask ask = { letter, session, 0, settings, usual, { 1, 2, 0, 0 }, (const uint8_t *)FIRST,
        strlen(FIRST), sizeof out };

    return second_play(book, &ask, out);
}

static void check_unchanged(const struct second_row *was)
{
    assert(memcmp(rows, was, sizeof rows) == 0);
}

static void test_10(void)
{
    static const uint64_t counts[] = { 0, 17, 18, (uint64_t)1 << 32, UINT64_MAX };
    static const uint64_t sessions[] = { 16, 17, (uint64_t)1 << 32, UINT64_MAX };
    static const uint64_t classes[] = { 0, 1, 3, 5, 7, 10, 258, UINT64_MAX };
    struct second_row was[SECOND_BOOK_ROWS + 1];

    fresh_book();
    rows[5].completed = 2;
    memcpy(was, rows, sizeof was);
    for (unsigned letter = 0; letter < SECOND_LETTERS; letter++) {
        for (unsigned i = 0; i < 5; i++) {
            book.count = counts[i];
            assert(same(call(letter, 0), refused(10, 0)));
        }
        book.count = SECOND_BOOK_ROWS;
        for (unsigned i = 0; i < 4; i++)
            assert(same(call(letter, sessions[i]), refused(10, 0)));
        assert(same(call(letter, 15), refused(19, 0)));
    }
    assert(same(offer_from(0, 2, BAD), refused(10, 0)) && same(offer_from(0, UINT64_MAX, BAD), refused(10, 0)));
    for (unsigned i = 0; i < 8; i++)
        assert(same(bearer(1, classes[i], 0, 0), refused(10, 0)));
    assert(same(bearer(1, 9, 0, 0), refused(19, 0)) && same(offer_from(0, 1, BAD), refused(19, 0)));
    check_unchanged(was);
    book = (struct second_book) { NULL, 0 };
    assert(same(call(SECOND_CANCEL, 0), refused(10, 0)));
    book.rows = rows;
    tests++;
}

static void test_11_to_14(void)
{
    struct second_row was[SECOND_BOOK_ROWS + 1];

    fresh_book();
    assert(same(answer(BAD), refused(12, 0)) && same(second_cancel(book, 0), refused(12, 0)));
    assert(same(second_close(book, 0), refused(13, 0)) && same(bearer(0, 2, 0, 0), refused(13, 0)));
    assert(same(second_statement(book, 0, NULL, 0), refused(13, 0)));
    assert(same(offer(BAD), refused(2, 1)));
    check_total(0, 0);
    exchange(FIRST, ANSWER);
    memcpy(was, rows, sizeof was);
    assert(same(offer(EMPTY), refused(14, 0)) && same(offer(EMPTY "x"), refused(2, 2)));
    check_unchanged(was);
    assert(same(offer(REMOVED), nothing));
    memcpy(was, rows, sizeof was);
    assert(same(offer(BAD), refused(11, 0)) && same(second_close(book, 0), refused(11, 0)));
    assert(same(bearer(1, 2, 0, 0), granted(0, 2, 105000, 67200)));
    check_component("1 audio 2 2 100000 64000 5000 3200");
    check_unchanged(was);
    assert(same(answer(REMOVED), changed(-105000, -67200)));
    assert(same(offer(EMPTY), refused(14, 0)));
    assert(same(second_close(book, 0), changed(0, 0)));
    assert(same(offer(EMPTY), nothing) && same(second_close(book, 0), refused(11, 0)));
    assert(same(second_cancel(book, 0), nothing) && same(second_close(book, 0), refused(13, 0)));
    tests++;
}

static void test_15(void)
{
    struct second_row was[SECOND_BOOK_ROWS + 1];

    fresh_book();
    assert(same(offer(FIRST "m=x 0 udp 0\n"), nothing));
    memcpy(was, rows, sizeof was);
    assert(same(answer_within((struct second_pool) { 0, 0 }, 0, BAD), refused(2, 1)));
    assert(same(answer_within((struct second_pool) { 0, 0 }, 0, ANSWER), refused(15, 0)));
    assert(same(answer(ANSWER "m=x 9 udp 0\n"), refused(15, 2)));
    assert(same(answer(ANSWER "m=data 0 udp 0\n"), refused(15, 2)));
    assert(same(answer(ANSWERED "m=audio 50000 udp 0\nm=x 9 udp 0\n"), refused(15, 1)));
    check_unchanged(was);
    assert(same(answer(ANSWER "m=y 0 udp 0\n"), changed(105000, 67200)));
    check_statement("components 2\n1 audio 2 2 100000 64000 5000 3200\n2 other 4 0 0 0 0 0\n");
    tests++;
}

static void test_17_and_18(void)
{
    fresh_exchange(FIRST "m=x 0 udp 0\n", ANSWER "m=x 0 udp 0\n");
    assert(same(bearer(0, 2, UINT64_MAX, 0), refused(18, 0)) && same(bearer(5, 2, UINT64_MAX, 0), refused(18, 0)));
    assert(same(bearer((uint64_t)1 << 63 | 1, 2, 0, 0), refused(18, 0)));
    assert(same(bearer(2, 9, 0, 0), granted(17, 0, 0, 0)));
    assert(same(bearer(3, 9, 105000, 67200), granted(0, 2, 105000, 67200)));
    assert(same(bearer(3, 2, 105000, 67201), granted(17, 2, 105000, 67200)));
    fresh_exchange(FIRST "a=sendonly\n", ANSWER "a=recvonly\n");
    assert(same(bearer(1, 4, 105000, 3200), granted(0, 4, 105000, 3200)));
    assert(same(bearer(1, 2, 105000, 3200), granted(17, 4, 105000, 3200)));
    fresh_exchange(EMPTY, EMPTY);
    assert(same(bearer(0, 2, 0, 0), refused(18, 0)) && same(bearer(1, 2, 0, 0), refused(18, 0)));
    tests++;
}

/* A value put into the field, in the named row and in another: 19 from every call, with nothing changed. */
#define OUT_OF_RANGE(field, value) \
    do { \
        rows[0].field = (value); \
        check_all_19(); \
        rows[0] = good; \
    } while (0)
#define IN_RANGE(field, value) \
    do { \
        rows[0].field = (value); \
        assert(second_in_range(&rows[0])); \
        rows[0] = good; \
    } while (0)

static void check_all_19(void)
{
    struct second_row was[SECOND_BOOK_ROWS + 1];

    memcpy(was, rows, sizeof was);
    for (unsigned letter = 0; letter < SECOND_LETTERS; letter++) {
        assert(same(call(letter, 0), refused(19, 0)));
        assert(same(call(letter, 7), refused(19, 0)));
    }
    check_unchanged(was);
}

static void test_19_held(void)
{
    fresh_exchange(FIRST "m=x 9 udp 0\n", ANSWER "m=x 9 udp 0\n");
    struct second_row good = rows[0];

    OUT_OF_RANGE(completed, 0);
    OUT_OF_RANGE(completed, 2);
    OUT_OF_RANGE(kept, 3);
    OUT_OF_RANGE(kept, 10);
    IN_RANGE(kept, 9);
    IN_RANGE(kept, 0);
    OUT_OF_RANGE(count, 1);
    OUT_OF_RANGE(count, 3);
    OUT_OF_RANGE(count, 9);
    OUT_OF_RANGE(components[2].kind, 1);
    OUT_OF_RANGE(components[7].down.address, 1);
    OUT_OF_RANGE(present, 2);
    IN_RANGE(present, 1);
    OUT_OF_RANGE(origin, 1);
    OUT_OF_RANGE(offered, 1);
    OUT_OF_RANGE(offer[0].port, 1);
    tests++;
}

static void test_19_components(void)
{
    fresh_exchange(FIRST "m=x 9 udp 0\n", ANSWER "m=x 9 udp 0\n");
    struct second_row good = rows[0];

    OUT_OF_RANGE(components[0].kind, 0);
    OUT_OF_RANGE(components[1].kind, 7);
    OUT_OF_RANGE(components[0].transport, 0);
    OUT_OF_RANGE(components[1].transport, 3);
    OUT_OF_RANGE(components[0].status, 5);
    OUT_OF_RANGE(components[0].class_number, 1);
    IN_RANGE(components[0].class_number, 0);
    IN_RANGE(components[0].up.address, UINT32_MAX);
    IN_RANGE(components[0].up.port, 65534);
    OUT_OF_RANGE(components[0].up.port, 65535);
    OUT_OF_RANGE(components[0].down.port, 65535);
    OUT_OF_RANGE(components[0].down.port, UINT32_MAX);
    IN_RANGE(components[1].up.port, 65535);
    OUT_OF_RANGE(components[1].down.port, 65536);
    IN_RANGE(components[0].up.port, 0);
    IN_RANGE(components[0].up.described, 0);
    OUT_OF_RANGE(components[0].up.described, 2);
    OUT_OF_RANGE(components[1].down.described, UINT32_MAX);
    IN_RANGE(components[0].status, 4);
    IN_RANGE(components[0].up.media, 4294967295u);
    IN_RANGE(components[1].down.rtcp, 8589934590u);
    OUT_OF_RANGE(components[1].up.rtcp, 8589934591u);
    OUT_OF_RANGE(components[1].down.rtcp, 8589934591u);
    OUT_OF_RANGE(components[0].down.rtcp, UINT64_MAX);
    tests++;
}

static void test_19_offers(void)
{
    fresh_book();
    assert(same(offer(FIRST "m=x 0 udp 0\n"), nothing));
    struct second_row good = rows[0];

    OUT_OF_RANGE(present, 0);
    OUT_OF_RANGE(present, 2);
    IN_RANGE(origin, 1);
    OUT_OF_RANGE(origin, 2);
    OUT_OF_RANGE(offered, 1);
    OUT_OF_RANGE(offered, 3);
    OUT_OF_RANGE(offered, UINT32_MAX);
    OUT_OF_RANGE(offer[2].kind, 1);
    OUT_OF_RANGE(offer[7].rr, 1);
    OUT_OF_RANGE(kept, 2);
    OUT_OF_RANGE(count, 1);
    OUT_OF_RANGE(components[0].kind, 1);
    tests++;
}

static void test_19_descriptions(void)
{
    fresh_book();
    assert(same(offer(FIRST "m=x 0 udp 0\n"), nothing));
    struct second_row good = rows[0];

    OUT_OF_RANGE(offer[0].kind, 0);
    OUT_OF_RANGE(offer[0].kind, 7);
    OUT_OF_RANGE(offer[1].transport, 3);
    OUT_OF_RANGE(offer[0].direction, 0);
    OUT_OF_RANGE(offer[0].direction, 5);
    IN_RANGE(offer[0].port, 65534);
    OUT_OF_RANGE(offer[0].port, 65535);
    IN_RANGE(offer[1].port, 65535);
    OUT_OF_RANGE(offer[0].known, 0);
    OUT_OF_RANGE(offer[0].known, 2);
    IN_RANGE(offer[1].address, UINT32_MAX);
    IN_RANGE(offer[0].requested, 0);
    IN_RANGE(offer[0].requested, 64001);
    IN_RANGE(offer[0].requested, UINT32_MAX);
    OUT_OF_RANGE(offer[0].requestedgiven, 0);
    OUT_OF_RANGE(offer[0].requestedgiven, 2);
    OUT_OF_RANGE(offer[1].requested, 1);
    IN_RANGE(offer[1].requestedgiven, 1);
    OUT_OF_RANGE(offer[0].rs, 1);
    OUT_OF_RANGE(offer[0].rsgiven, 2);
    IN_RANGE(offer[0].rsgiven, 1);
    OUT_OF_RANGE(offer[0].rr, 1);
    IN_RANGE(offer[0].rrgiven, 1);
    /* A live port without an address is in range, field by field. */
    rows[0].offer[0].known = 0;
    rows[0].offer[0].address = 0;
    assert(second_in_range(&rows[0]));
    tests++;
}

/* A lent row may hold more than its open offer has; then what is left is cleared. */
static void test_fewer_than_held(void)
{
    fresh_exchange(FIRST "m=x 9 udp 0\n", ANSWER "m=x 9 udp 0\n");
    struct second_row held = rows[0];
    fresh_book();
    assert(same(offer(FIRST), nothing));
    held.present = rows[0].present;
    held.offered = rows[0].offered;
    memcpy(held.offer, rows[0].offer, sizeof held.offer);
    rows[0] = held;
    assert(second_in_range(&rows[0]));
    assert(same(answer(ANSWER), changed(-100000, -100000)));
    assert(second_in_range(&rows[0]) && rows[0].count == 1);
    check_component("1 audio 2 2 100000 64000 5000 3200");
    tests++;
}

/* One call over lent rows of any sense: only the named one changes, by what is answered, and stays in range. */
static void check_lent(unsigned letter, unsigned session)
{
    struct second_row was[SECOND_BOOK_ROWS + 1];
    struct second_look look = second_look(rows, book.count);

    memcpy(was, rows, sizeof was);
    struct second_reply reply = call(letter, session);
    assert((reply.refusal == 19) == !look.in_range);
    if (reply.refusal != 0 || letter == SECOND_BEARER || letter == SECOND_STATEMENT)
        check_unchanged(was);
    if (!look.in_range)
        return;
    struct second_rates after = second_booked_in_all(book);
    assert(after.up - look.booked.up == (uint64_t)reply.change_up);
    assert(after.down - look.booked.down == (uint64_t)reply.change_down);
    assert(second_in_range(&rows[session]));
    was[session] = rows[session];
    check_unchanged(was);
}

static void test_lent_rows(void)
{
    uint64_t seed = 9;

    fresh_book();
    for (unsigned i = 0; i < 20000; i++) {
        unsigned count = 1 + below(&seed, 3);
        book.count = count;
        for (unsigned j = 0; j < count; j++)
            second_generate_row(&seed, &rows[j]);
        check_lent(i % SECOND_LETTERS, below(&seed, count));
        second_damage_row(&seed, &rows[below(&seed, count)]);
        check_lent(i % SECOND_LETTERS, below(&seed, count));
    }
    tests++;
}

/* Sixteen sessions whose offers and answers cross: the changes add up, and refusals change nothing. */
static void test_generated(void)
{
    static struct second_evening evening = { .seed = 1 };
    unsigned long seen[21] = { 0 };
    struct second_row was[SECOND_BOOK_ROWS + 1];

    for (int i = 0; i < 200; i++) {
        int64_t up = 0, down = 0;
        fresh_book();
        second_start_evening(&evening);
        book.count = evening.rows;
        for (int j = 0; j < 200; j++) {
            uint8_t out[600];
            struct second_ask ask;
            memcpy(was, rows, sizeof was);
            second_generate_ask(&evening, rows, &ask);
            struct second_reply reply = second_play(book, &ask, out);
            seen[reply.refusal]++;
            if (reply.refusal != 0)
                check_unchanged(was);
            up += reply.change_up;
            down += reply.change_down;
            assert(up >= 0 && down >= 0);
            check_total((uint64_t)up, (uint64_t)down);
        }
    }
    printf("generated:");
    for (int number = 0; number <= 20; number++) {
        printf(" %lu", seen[number]);
        assert(number == 19 || seen[number] >= 20);
    }
    printf("\n");
    tests++;
}

int main(void)
{
    test_evening_example();
    test_cases_a_to_e();
    test_cases_f_g_h();
    test_whole_call();
    test_tias();
    test_lent_requested();
    test_case_i();
    test_case_j();
    test_cases_k_l();
    test_longest_statement();
    test_10();
    test_11_to_14();
    test_15();
    test_17_and_18();
    test_19_held();
    test_19_components();
    test_19_offers();
    test_19_descriptions();
    test_numbers();
    test_fewer_than_held();
    test_lent_rows();
    test_generated();
    printf("second: %u tests of the book passed\n", tests);
    return 0;
}
