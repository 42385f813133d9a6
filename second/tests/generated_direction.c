#undef NDEBUG
#include "../generate/flow.h"
#include "../server/flow.h"

#include <assert.h>
#include <stdbool.h>
#include <stdio.h>
#include <string.h>

/* That generated texts and exchanges have the session section's direction (02, request 1) in every way, and often. */

static const char *const directions[] = { "a=sendrecv", "a=sendonly", "a=recvonly", "a=inactive" };
static unsigned tests;

static bool is_direction(const uint8_t *line, size_t bytes)
{
    for (unsigned i = 0; i < 4; i++)
        if (bytes == 10 && memcmp(line, directions[i], 10) == 0)
            return true;
    return false;
}

/* The session section, line by line: its directions, lines near to one, and whether an m= line comes after it. */
struct session {
    unsigned directions, near;
    bool differ, has_media;
};

static struct session look_at(const uint8_t *text, size_t len)
{
    struct session session = { 0 };
    const uint8_t *last = NULL;

    for (size_t at = 0; at < len && !session.has_media;) {
        const uint8_t *line = text + at, *lf = memchr(line, '\n', len - at);
        size_t bytes = lf ? (size_t)(lf - line) : len - at;
        at += bytes + 1;
        bytes -= bytes > 0 && line[bytes - 1] == '\r';
        if (is_direction(line, bytes)) {
            session.differ |= last && memcmp(last, line, 10) != 0;
            session.directions++;
            last = line;
        }
        session.near += bytes > 10 && is_direction(line, 10);
        session.has_media = bytes >= 2 && memcmp(line, "m=", 2) == 0;
    }
    return session;
}

static bool has_own(const struct second_media *media)
{
    return media->d_start > media->m_start;
}

struct seen_texts {
    unsigned one, none, near, equal, different, without_media, in_media;
    unsigned sections[2][2]; /* by whether the session has a direction, and whether they do */
};

static void see_text(const uint8_t *bytes, size_t len, struct seen_texts *seen)
{
    struct session session = look_at(bytes, len);
    struct second_text text;

    second_read_text(bytes, len, &text);
    if (text.refusal == 8) {
        seen->in_media += session.directions < 2;
        seen->equal += session.directions == 2 && !session.differ;
        seen->different += session.directions == 2 && session.differ;
        seen->without_media += !session.has_media;
    } else if (text.refusal == 0) {
        assert(session.directions < 2);
        seen->one += session.directions == 1;
        seen->none += session.directions == 0;
        seen->near += session.near > 0;
        for (unsigned i = 0; i < text.count; i++) {
            seen->sections[session.directions][has_own(&text.media[i])]++;
            assert((text.media[i].d_end != 0) == (session.directions || has_own(&text.media[i])));
        }
    }
}

static void test_generated_texts(void)
{
    static uint8_t text[SECOND_GENERATED_BYTES];
    struct seen_texts seen = { 0 };
    uint64_t state = 2;

    for (int i = 0; i < 20000; i++)
        see_text(text, second_generate_text(&state, text, sizeof text), &seen);
    printf("generated: one %u none %u near %u, equal %u different %u without media %u in media %u\n", seen.one,
        seen.none, seen.near, seen.equal, seen.different, seen.without_media, seen.in_media);
    assert(seen.one >= 2000 && seen.none >= 2000 && seen.near >= 200);
    assert(seen.equal >= 50 && seen.different >= 100 && seen.without_media >= 10 && seen.in_media >= 300);
    for (int i = 0; i < 4; i++)
        assert(seen.sections[i / 2][i % 2] >= 1000);
    tests++;
}

/* Live components: how often with which lines, and decided by a session line. */
struct seen_exchanges {
    unsigned forms[4][4]; /* of offer and answer: 1 session, 2 own */
    unsigned by_offer, by_answer[5]; /* by whose session line, the answer's by its direction */
};

static unsigned form_of(unsigned session, const struct second_media *media)
{
    return session | (unsigned)has_own(media) << 1;
}

static void see_exchange(const struct second_exchange *exchange, struct seen_exchanges *seen)
{
    struct second_text offer, answer;

    second_read_text(exchange->offer, exchange->offer_len, &offer);
    second_read_text(exchange->answer, exchange->answer_len, &answer);
    if (offer.refusal || answer.refusal || second_fit(second_sections(&offer), second_sections(&answer)).refusal)
        return;
    unsigned offered = look_at(exchange->offer, exchange->offer_len).directions,
        answered = look_at(exchange->answer, exchange->answer_len).directions;
    for (unsigned i = 0; i < offer.count; i++) {
        const struct second_media *first = &offer.media[i], *then = &answer.media[i];
        unsigned offer_form = form_of(offered, first), answer_form = form_of(answered, then);
        if (first->port == 0 || then->port == 0)
            continue;
        seen->forms[offer_form][answer_form]++;
        seen->by_offer += offer_form == 1 && first->direction == 4;
        seen->by_answer[then->direction] += answer_form == 1 && first->direction != 4;
    }
}

static void test_generated_exchanges(void)
{
    static struct second_exchange exchange;
    struct seen_exchanges seen = { 0 };
    struct second_call call = { .seed = 3 };

    for (int i = 0; i < 20000; i++) {
        second_generate_exchange(&call, &exchange);
        see_exchange(&exchange, &seen);
    }
    for (int i = 0; i < 16; i++)
        assert(seen.forms[i / 4][i % 4] >= 200);
    assert(seen.by_offer >= 1000);
    for (int direction = 1; direction <= 4; direction++)
        assert(seen.by_answer[direction] >= 1000);
    tests++;
}

int main(void)
{
    test_generated_texts();
    test_generated_exchanges();
    printf("second: %u tests of generated directions passed\n", tests);
    return 0;
}
