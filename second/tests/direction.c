#undef NDEBUG
#include "../server/flow.h"

#include <assert.h>
#include <stdio.h>
#include <stdlib.h>
#include <string.h>

/* The session section's direction (02, request 1): in texts, in statuses and in deciding lines. */

#define V "v=0\n"
#define C "c=IN IP4 192.0.2.1\n"
#define M "m=audio 0 RTP/AVP 0\n"
#define L "m=audio 40000 RTP/AVP 0\n"
#define LIVE "m=audio 40000 RTP/AVP 0"
#define REMOVED "m=audio 0 RTP/AVP 0"

static const char *const directions[] = { "", "a=sendrecv", "a=sendonly", "a=recvonly", "a=inactive" };
static const struct second_settings settings = { 100000, 100000, 5000, 5000 };
static unsigned tests;

/* A text: its refusal and place, or of each media section its direction and the line that gives it, 0 for none. */
struct text_trial {
    const char *text;
    size_t len;
    uint32_t refusal, place;
    const char *directions, *lines;
};

#define GOOD(text, directions, lines) { text, sizeof(text) - 1, 0, 0, directions, lines }
#define REFUSED(text, refusal, place) { text, sizeof(text) - 1, refusal, place, "", "" }

static const struct text_trial text_trials[] = {
    /* Each of the four, for a section without one. */
    GOOD(V M, "1", "0"),
    GOOD(V "a=sendrecv\n" M, "1", "2"),
    GOOD(V "a=sendonly\n" M, "2", "2"),
    GOOD(V "a=recvonly\n" M, "3", "2"),
    GOOD(V "a=inactive\n" M, "4", "2"),
    /* On any line before the first m= line. */
    GOOD(V "a=sendonly\n" C L, "2", "2"),
    GOOD(V C "a=sendonly\n" L, "2", "3"),
    GOOD(V "s=-\nt=0 0\n" C "b=AS:x\na=ptime:20\na=recvonly\nk=x\n" L, "3", "7"),
    GOOD(V "v=0\na=inactive\nv=0\n" M, "4", "3"),
    /* For every section without one; the own wins, before and after others, and where it is equal. */
    GOOD(V "a=inactive\n" M M M, "444", "222"),
    GOOD(V "a=inactive\n" M "a=sendrecv\n", "1", "4"),
    GOOD(V "a=sendrecv\n" M "a=inactive\n", "4", "4"),
    GOOD(V "a=sendonly\n" M "b=AS:1\na=recvonly\n" C, "3", "5"),
    GOOD(V "a=inactive\n" M "a=inactive\n", "4", "4"),
    GOOD(V "a=inactive\n" M M "a=sendonly\n" M, "424", "252"),
    GOOD(V "a=sendonly\n" M M M M M M M M, "22222222", "22222222"),
    /* A media section's serves that section alone. */
    GOOD(V M "a=inactive\n" M, "41", "30"),
    GOOD(V "a=sendonly\n" M "a=inactive\n" M, "42", "42"),
    GOOD(V M "a=sendonly\n" M "a=recvonly\n" M, "231", "350"),
    /* Without the ending, whatever it is. */
    GOOD("v=0\r\na=inactive\r\nm=audio 0 RTP/AVP 0\r\n", "4", "2"),
    GOOD("v=0\r\na=recvonly\n" M "s=-\r\n" M "a=sendrecv\r\n", "31", "26"),
    /* The same exact bytes. */
    GOOD(V "a=inactive \na=Inactive\na= inactive\na=inactive2\na=inactiv\na=inactive\t\n" M, "1", "0"),
    GOOD(V "a=\na=INACTIVE\ns=a=inactive\na=a=inactive\na=inactive:\nb=inactive\n" M, "1", "0"),
    GOOD(V "a=sendonly \na=recvonly\na=Sendonly\n" M, "3", "3"),
    GOOD(V "a=sendonly\na=sendonly \na=sendonly:1\n" M M "a=inactive \n", "22", "22"),
    /* It is good without a section too. */
    GOOD(V "a=inactive\n", "", ""),
    GOOD("v=0\r\ns=-\r\na=sendrecv\r\n", "", ""),
    /* A second one, equal or not, at its line, also where no section uses it. */
    REFUSED(V "a=sendonly\na=sendonly\n" M, 8, 3),
    REFUSED(V "a=sendonly\na=inactive\n" M, 8, 3),
    REFUSED(V "a=sendrecv\na=sendrecv\n" M, 8, 3),
    REFUSED(V "a=inactive\ns=-\n" C "a=sendrecv\n" L, 8, 5),
    REFUSED("v=0\r\na=inactive\r\ni=\r\na=inactive\r\nm=audio 0 RTP/AVP 0\r\n", 8, 4),
    REFUSED(V "a=inactive\na=sendonly\na=recvonly\n" M, 8, 3),
    REFUSED(V "a=inactive\na=recvonly\n" M "a=sendrecv\n" M "a=sendrecv\n", 8, 3),
    REFUSED(V "a=inactive\na=inactive \na=inactive\n" M, 8, 4),
    REFUSED(V "a=sendrecv\na=sendrecv\n", 8, 3),
    REFUSED("v=0\r\na=sendonly\r\ns=-\r\na=recvonly\r\n", 8, 4),
    /* In a media section as before, whatever the session has. */
    REFUSED(V "a=inactive\n" M "a=sendonly\na=sendonly\n", 8, 5),
    REFUSED(V "a=inactive\n" M "a=inactive\n" M "s=-\na=recvonly\na=inactive\n", 8, 8),
    REFUSED(V "a=sendonly\n" M M "a=sendonly\nb=AS:1\na=sendonly\n", 8, 7),
    /* The first faulty line wins, and 2 before 8 in one. */
    REFUSED(V "a=inactive\na=inactive\nc=x\n", 8, 3),
    REFUSED(V "c=x\na=inactive\na=inactive\n", 6, 2),
    REFUSED(V "a=inactive\nc=x\na=inactive\n", 6, 3),
    REFUSED(V "a=inactive\na=inactive\0\n", 2, 3),
    REFUSED(V "a=inactive\na=inactive\r\r\n", 2, 3),
    REFUSED(V "a=inactive\na=inactive", 2, 3),
    REFUSED(V "a=inactive\na=inactive\n" M M M M M M M M M, 8, 3),
    REFUSED(V "a=inactive\n" L, 9, 3),
    REFUSED(V "a=inactive\na=inactive\n" L, 8, 3),
    REFUSED("a=inactive\n" V, 2, 1),
};

/* The number of the line that starts there. */
static unsigned line_at(const void *text, size_t at)
{
    const char *bytes = text;
    unsigned number = 1;

    assert(at == 0 || bytes[at - 1] == '\n');
    while (at-- > 0)
        number += bytes[at] == '\n';
    return number;
}

static void check_direction(const char *text, const struct second_media *media, unsigned direction, unsigned line)
{
    assert(media->direction == direction);
    if (line == 0) {
        assert(media->d_start == 0 && media->d_end == 0);
    } else {
        assert(line_at(text, media->d_start) == line && media->d_end == media->d_start + 10);
        assert(memcmp(text + media->d_start, directions[direction], 10) == 0);
    }
}

/* A copy of exactly its length, so that the sanitizer sees any byte read past it. */
static struct second_text read_copy(const char *text, size_t len)
{
    struct second_text answer;
    uint8_t *copy = malloc(len);

    memcpy(copy, text, len);
    second_read_text(copy, len, &answer);
    free(copy);
    return answer;
}

static void test_texts(void)
{
    for (size_t i = 0; i < sizeof text_trials / sizeof text_trials[0]; i++) {
        const struct text_trial *trial = &text_trials[i];
        struct second_text answer = read_copy(trial->text, trial->len);
        if (answer.refusal != trial->refusal || answer.place != trial->place)
            fprintf(stderr, "refused %u %u: %s\n", (unsigned)answer.refusal, (unsigned)answer.place, trial->text);
        assert(answer.refusal == trial->refusal && answer.place == trial->place);
        assert(answer.count == strlen(trial->directions) && answer.count == strlen(trial->lines));
        for (unsigned j = 0; j < answer.count; j++)
            check_direction(trial->text, &answer.media[j], (unsigned)(trial->directions[j] - '0'),
                (unsigned)(trial->lines[j] - '0'));
        tests++;
    }
}

/* What decides a component: the text, 1 offer or 2 answer, the number of the line, and its bytes. */
struct deciding {
    unsigned text, line;
    const char *bytes;
};

static void check_deciding_line(const char *offer, const char *answer, unsigned component, struct deciding expected)
{
    struct second_decision decision = second_deciding_line((const uint8_t *)offer, strlen(offer),
        (const uint8_t *)answer, strlen(answer), component);
    const char *text = decision.text == 1 ? offer : answer;

    assert(decision.refusal == 0 && decision.place == 0 && decision.failed == 0);
    assert(decision.text == expected.text && line_at(text, decision.start) == expected.line);
    assert(decision.end - decision.start == strlen(expected.bytes));
    assert(memcmp(text + decision.start, expected.bytes, strlen(expected.bytes)) == 0);
}

static struct second_component derive(uint64_t origin, const char *offer, const char *answer, unsigned component)
{
    static const struct second_before before;
    struct second_text first = read_copy(offer, strlen(offer)), then = read_copy(answer, strlen(answer));

    assert(first.refusal == 0 && then.refusal == 0);
    assert(second_fit(second_sections(&first), second_sections(&then)).refusal == 0);
    return second_derive(&settings, origin, &before, second_sections(&first), second_sections(&then))
        .components[component - 1];
}

/* A component of an exchange, and its status where the handset offered and where the network did. */
struct exchange_trial {
    const char *offer, *answer;
    unsigned component, handset, network;
    struct deciding by;
};

static const struct exchange_trial exchange_trials[] = {
    /* The gateway: a direction before the first m= line and nothing in the media sections. */
    { V C "a=sendonly\n" L, V C "a=recvonly\n" L, 1, 0, 1, { 2, 3, "a=recvonly" } },
    { V C "a=recvonly\n" L, V "a=sendonly\n" C L, 1, 1, 0, { 2, 2, "a=sendonly" } },
    { V C "a=sendonly\n" L L, V C "a=recvonly\n" L L, 2, 0, 1, { 2, 3, "a=recvonly" } },
    { V C "a=sendonly\n" L, V C L "a=recvonly\n", 1, 0, 1, { 2, 4, "a=recvonly" } },
    /* An answer that decides with neither line. */
    { V C L, V C L, 1, 2, 2, { 2, 3, LIVE } },
    { V C "a=sendonly\n" L, V C L, 1, 2, 2, { 2, 3, LIVE } },
    { V C "a=sendonly\n" L, V C "a=recvonly \na=Recvonly\n" L, 1, 2, 2, { 2, 5, LIVE } },
    /* The offer's session inactive decides (NOTE 4), whatever the answer says. */
    { V C "a=inactive\n" L, V C L, 1, 3, 3, { 1, 3, "a=inactive" } },
    { V C "a=inactive\n" L, V C L "a=sendrecv\n", 1, 3, 3, { 1, 3, "a=inactive" } },
    { V "a=inactive\n" C L, V C "a=recvonly\n" L "a=sendonly\n", 1, 3, 3, { 1, 2, "a=inactive" } },
    { V C "a=inactive\n" L, V C "a=inactive\n" L, 1, 3, 3, { 1, 3, "a=inactive" } },
    { V C "a=inactive\n" L L L, V C L L L, 3, 3, 3, { 1, 3, "a=inactive" } },
    /* An own sendrecv beats it, and so do the others. */
    { V C "a=inactive\n" L "a=sendrecv\n", V C L, 1, 2, 2, { 2, 3, LIVE } },
    { V C "a=inactive\n" L "a=sendrecv\n", V C "a=recvonly\n" L, 1, 0, 1, { 2, 3, "a=recvonly" } },
    { V C "a=inactive\n" L "a=sendonly\n", V C L "a=recvonly\n", 1, 0, 1, { 2, 4, "a=recvonly" } },
    { V C "a=inactive\n" L "a=recvonly\n" L, V C L L, 2, 3, 3, { 1, 3, "a=inactive" } },
    { V C "a=inactive\n" L "a=recvonly\n" L, V C L L, 1, 2, 2, { 2, 3, LIVE } },
    /* The own line decides where there are both. */
    { V C "a=inactive\n" L "a=inactive\n", V C L, 1, 3, 3, { 1, 5, "a=inactive" } },
    { V C "a=sendrecv\n" L "a=inactive\n", V C L, 1, 3, 3, { 1, 5, "a=inactive" } },
    { V C L, V C "a=sendrecv\n" L "a=sendrecv\n", 1, 2, 2, { 2, 5, "a=sendrecv" } },
    { V C L, V C "a=inactive\n" L "a=sendrecv\n", 1, 2, 2, { 2, 5, "a=sendrecv" } },
    { V C L, V C "a=sendrecv\n" L "a=inactive\n", 1, 3, 3, { 2, 5, "a=inactive" } },
    { V C L, V C "a=sendonly\n" L "a=recvonly\n", 1, 0, 1, { 2, 5, "a=recvonly" } },
    /* The answer's session line, a sendrecv too. */
    { V C L, V C "a=inactive\n" L, 1, 3, 3, { 2, 3, "a=inactive" } },
    { V C L "a=sendonly\n", V "a=sendrecv\n" C L, 1, 2, 2, { 2, 2, "a=sendrecv" } },
    { V C "a=sendrecv\n" L, V C "a=sendrecv\n" L, 1, 2, 2, { 2, 3, "a=sendrecv" } },
    /* A direction after an m= line does not serve the next section. */
    { V C L "a=inactive\n" L, V C L L, 1, 3, 3, { 1, 4, "a=inactive" } },
    { V C L "a=inactive\n" L, V C L L, 2, 2, 2, { 2, 4, LIVE } },
    { V C L L, V C L "a=inactive\n" L, 2, 2, 2, { 2, 5, LIVE } },
    { V C "a=sendonly\n" L "a=inactive\n" L, V C "a=recvonly\n" L "a=inactive\n" L, 2, 0, 1, { 2, 3, "a=recvonly" } },
    /* Removed as before: the m= line with port 0, offer first. */
    { V C "a=inactive\n" M, V C "a=inactive\n" M, 1, 4, 4, { 1, 4, REMOVED } },
    { V C "a=inactive\n" L, V C "a=inactive\n" M, 1, 4, 4, { 2, 4, REMOVED } },
    { V C L, V C "a=sendonly\n" M "a=sendonly\n", 1, 4, 4, { 2, 4, REMOVED } },
    { V C "a=inactive\n" M L, V C "a=sendonly\n" M L, 2, 3, 3, { 1, 3, "a=inactive" } },
    /* Without the ending, whatever it is. */
    { "v=0\r\nc=IN IP4 1.2.3.4\r\na=inactive\r\n" L, V C L, 1, 3, 3, { 1, 3, "a=inactive" } },
    { V C L, "v=0\r\na=sendrecv\r\nc=IN IP4 1.2.3.4\r\n" L, 1, 2, 2, { 2, 2, "a=sendrecv" } },
    { V C "a=sendonly\r\n" L, "v=0\r\nc=IN IP4 1.2.3.4\na=recvonly\r\n" LIVE "\r\n", 1, 0, 1, { 2, 3, "a=recvonly" } },
};

static void test_exchanges(void)
{
    for (size_t i = 0; i < sizeof exchange_trials / sizeof exchange_trials[0]; i++) {
        const struct exchange_trial *trial = &exchange_trials[i];
        assert(derive(0, trial->offer, trial->answer, trial->component).status == trial->handset);
        assert(derive(1, trial->offer, trial->answer, trial->component).status == trial->network);
        check_deciding_line(trial->offer, trial->answer, trial->component, trial->by);
        tests++;
    }
}

/* Cases f and g with the direction before the first m= line: "we open both gates on a call that is on hold". */
static void test_gates(void)
{
    struct second_component held = derive(0, V C "a=inactive\n" L "b=AS:64\n", V C "a=sendrecv\n" L, 1),
        up = derive(0, V C "a=sendonly\n" L "b=AS:64\n", V C "a=recvonly\n" L, 1);
    struct second_gates gates = second_gates(&held);

    assert(gates.media_up + gates.media_down + gates.rtcp_up + gates.rtcp_down == 0);
    assert(held.class_number == 2 && held.up.media == 100000 && held.down.media == 64000);
    gates = second_gates(&up);
    assert(gates.media_up == 1 && gates.media_down == 0 && gates.rtcp_up == 1 && gates.rtcp_down == 1);
    assert(up.class_number == 4 && up.up.media == 100000 && up.down.media == 0 && up.down.rtcp == 3200);
    assert(up.up.described == 1 && up.down.described == 0);
    tests++;
}

static void check_refused_line(const char *offer, const char *answer, uint64_t place, uint64_t failed)
{
    struct second_decision decision = second_deciding_line((const uint8_t *)offer, strlen(offer),
        (const uint8_t *)answer, strlen(answer), 1);

    assert(decision.refusal == 8 && decision.place == place && decision.failed == failed);
    assert(decision.text == 2 && decision.start == 0 && decision.end == 0);
    tests++;
}

static void test_refused_lines(void)
{
    check_refused_line(V "a=inactive\na=inactive\n" C L, V C L, 3, 1);
    check_refused_line(V C L, V C "a=inactive\ns=-\na=sendonly\n" L, 5, 2);
    check_refused_line(V "a=inactive\na=sendrecv\n", V "s=-\na=inactive\na=sendrecv\n", 3, 1);
    check_refused_line(V, V "a=sendrecv\na=sendrecv\n", 3, 2);
    check_refused_line(V "a=inactive\n" C L "a=sendrecv\na=sendrecv\n", V, 6, 1);
}

/* A session and an own direction, 0 for none. */
struct side {
    unsigned session, own;
};

static unsigned direction_of(struct side side)
{
    return side.own ? side.own : side.session ? side.session : 1;
}

static void write_side(struct side side, char *text)
{
    sprintf(text, V C "%s%s" L "%s%s", directions[side.session], side.session ? "\n" : "", directions[side.own],
        side.own ? "\n" : "");
}

/* The line of the text that decides by its direction, or by having none. */
static struct deciding deciding_of(unsigned text, struct side side)
{
    if (side.own)
        return (struct deciding) { text, side.session ? 5 : 4, directions[side.own] };
    return (struct deciding) { text, 3, side.session ? directions[side.session] : LIVE };
}

/* Every mix of the two in both texts; statuses for pairs of directions, rows are the offer's. */
static void test_every_mix(void)
{
    static const char handset[] = "2103" "2103" "2103" "3333", network[] = "2013" "2013" "2013" "3333";

    for (unsigned mix = 0; mix < 625; mix++) {
        struct side first = { mix % 5, mix / 5 % 5 }, then = { mix / 25 % 5, mix / 125 };
        char offer[100], answer[100];
        write_side(first, offer);
        write_side(then, answer);
        unsigned pair = 4 * (direction_of(first) - 1) + direction_of(then) - 1;
        assert(derive(0, offer, answer, 1).status == handset[pair] - '0');
        assert(derive(1, offer, answer, 1).status == network[pair] - '0');
        check_deciding_line(offer, answer, 1, direction_of(first) == 4 ? deciding_of(1, first) : deciding_of(2, then));
    }
    tests++;
}

int main(void)
{
    test_texts();
    test_exchanges();
    test_gates();
    test_refused_lines();
    test_every_mix();
    printf("second: %u tests of the session's direction passed\n", tests);
    return 0;
}
