#undef NDEBUG
#include "../generate/book.h"
#include "../generate/evening.h"
#include "../server/calls.h"

#include <assert.h>
#include <stdio.h>
#include <string.h>

/* That what is generated has TIAS (02, request 7) in every way, and often a twentieth that is not whole. */

static unsigned tests;

struct line {
    const uint8_t *bytes;
    size_t len;
};

/* The line that starts there, without its ending; at is moved on. */
static struct line next_line(const uint8_t *text, size_t len, size_t *at)
{
    struct line line = { text + *at, 0 };
    const uint8_t *lf = memchr(line.bytes, '\n', len - *at);

    line.len = lf ? (size_t)(lf - line.bytes) : len - *at;
    *at += line.len + 1;
    line.len -= line.len > 0 && line.bytes[line.len - 1] == '\r';
    return line;
}

static bool begins(struct line line, const char *word)
{
    return line.len >= strlen(word) && memcmp(line.bytes, word, strlen(word)) == 0;
}

static bool equal(struct line one, struct line other)
{
    return one.len == other.len && memcmp(one.bytes, other.bytes, one.len) == 0;
}

static bool near_tias(struct line line)
{
    return !begins(line, "b=TIAS:") && (begins(line, "b=T") || begins(line, "b=t") || begins(line, "b=XT"));
}

static bool digits_only(struct line line, size_t from)
{
    while (from < line.len && line.bytes[from] >= '0' && line.bytes[from] <= '9')
        from++;
    return from == line.len;
}

/* What was read of a section so far. */
struct section {
    bool media;
    unsigned as, tias;
    bool as_first;
    struct line first_tias;
};

struct seen_texts {
    unsigned forms[4]; /* of good sections: neither, AS alone, TIAS alone, both */
    unsigned as_first, tias_first, zero, top, leading_zeros, not_whole, in_session[2], near;
    unsigned equal, different, too_large, eleven_digits, no_number, beside_as; /* 7 by a TIAS */
};

static void see_line(struct section *section, struct line line)
{
    if (begins(line, "m=")) {
        *section = (struct section) { .media = true };
    } else if (begins(line, "b=AS:")) {
        section->as++;
        section->as_first |= section->tias == 0;
    } else if (begins(line, "b=TIAS:")) {
        section->first_tias = line;
        section->tias++;
    }
}

static void see_refused(const struct section *before, struct line line, struct seen_texts *seen)
{
    bool number = line.len > 7 && digits_only(line, 7);

    seen->beside_as += before->as > 0;
    if (before->tias > 0) {
        seen->equal += equal(before->first_tias, line);
        seen->different += !equal(before->first_tias, line);
        return;
    }
    seen->no_number += !number;
    seen->too_large += number && line.len == 17;
    seen->eleven_digits += number && line.len == 18;
    assert(!number || line.len >= 17);
}

/* A line of a good text, after what was before it. */
static void see_good(const struct section *before, struct line line, struct seen_texts *seen)
{
    seen->near += before->media && near_tias(line);
    if (!begins(line, "b=TIAS:"))
        return;
    if (!before->media) {
        seen->in_session[line.len > 7 && digits_only(line, 7)]++;
        return;
    }
    seen->leading_zeros += line.len == 17 && line.bytes[7] == '0';
    seen->top += line.len == 17 && memcmp(line.bytes + 7, "4294967295", 10) == 0;
    seen->zero += line.len == 8 && line.bytes[7] == '0';
    assert(before->tias == 0 && digits_only(line, 7) && line.len <= 17);
}

static void see_section(const struct section *section, const struct second_media *media, struct seen_texts *seen)
{
    unsigned form = section->as | section->tias << 1;

    assert(section->as <= 1 && section->tias <= 1 && media->has_requested == (form != 0));
    assert(section->as == 0 || media->requested % 1000 == 0);
    seen->forms[form]++;
    seen->as_first += form == 3 && section->as_first;
    seen->tias_first += form == 3 && !section->as_first;
    seen->not_whole += media->requested % 20 != 0;
}

static void see_text(const uint8_t *bytes, size_t len, struct seen_texts *seen)
{
    struct section section = { 0 };
    struct second_text text;
    unsigned count = 0;
    size_t at = 0;

    second_read_text(bytes, len, &text);
    for (unsigned number = 1; at < len; number++) {
        struct line line = next_line(bytes, len, &at);
        if (text.refusal == 7 && text.place == number && begins(line, "b=TIAS:"))
            see_refused(&section, line, seen);
        if (text.refusal == 0) {
            see_good(&section, line, seen);
            if (begins(line, "m=") && section.media)
                see_section(&section, &text.media[count++], seen);
        }
        see_line(&section, line);
    }
    if (text.refusal == 0 && section.media)
        see_section(&section, &text.media[count++], seen);
    assert(count == text.count);
}

static void test_generated_texts(void)
{
    static uint8_t text[SECOND_GENERATED_BYTES];
    struct seen_texts seen = { 0 };
    uint64_t state = 4;

    for (int i = 0; i < 20000; i++)
        see_text(text, second_generate_text(&state, text, sizeof text), &seen);
    printf("generated: TIAS alone %u, AS first %u, TIAS first %u, not whole %u, near %u, in the session %u and %u\n",
        seen.forms[2], seen.as_first, seen.tias_first, seen.not_whole, seen.near, seen.in_session[1],
        seen.in_session[0]);
    printf("refused: equal %u different %u too large %u eleven digits %u no number %u, beside AS %u\n", seen.equal,
        seen.different, seen.too_large, seen.eleven_digits, seen.no_number, seen.beside_as);
    for (int i = 0; i < 4; i++)
        assert(seen.forms[i] >= 1000);
    assert(seen.as_first >= 500 && seen.tias_first >= 500 && seen.not_whole >= 1000);
    assert(seen.zero >= 50 && seen.top >= 50 && seen.leading_zeros >= 50 && seen.near >= 500);
    assert(seen.in_session[0] >= 500 && seen.in_session[1] >= 500);
    assert(seen.equal >= 50 && seen.different >= 50 && seen.too_large >= 50 && seen.eleven_digits >= 20);
    assert(seen.no_number >= 50 && seen.beside_as >= 50);
    tests++;
}

/* How often a twentieth that is not whole is an RTCP rate: alone, and above or below a lone RS or RR. */
struct seen_exchanges {
    unsigned alone, above, below;
};

static void see_receiver(const struct second_media *receiver, const struct second_media *answer,
    struct seen_exchanges *seen)
{
    uint64_t twentieth = ((uint64_t)receiver->requested + 19) / 20, lone = answer->has_rs ? answer->rs : answer->rr;

    if (receiver->requested % 20 == 0 || (answer->has_rs && answer->has_rr))
        return;
    if (!answer->has_rs && !answer->has_rr)
        seen->alone++;
    else if (twentieth > lone)
        seen->above++;
    else
        seen->below++;
}

static void see_exchange(const struct second_text *offer, const struct second_text *answer, struct seen_exchanges *seen)
{
    if (offer->refusal || answer->refusal || second_fit(second_sections(offer), second_sections(answer)).refusal)
        return;
    for (unsigned i = 0; i < offer->count; i++) {
        const struct second_media *first = &offer->media[i], *then = &answer->media[i];
        if (first->transport != 1 || first->port == 0 || then->port == 0)
            continue;
        see_receiver(first, then, seen);
        see_receiver(then, then, seen);
    }
}

static void test_generated_exchanges(bool modest)
{
    static struct second_exchange exchange;
    struct seen_exchanges seen = { 0 };
    struct second_call call = { .seed = 5, .modest = modest };

    for (int i = 0; i < 20000; i++) {
        struct second_text offer, answer;
        second_generate_exchange(&call, &exchange);
        second_read_text(exchange.offer, exchange.offer_len, &offer);
        second_read_text(exchange.answer, exchange.answer_len, &answer);
        see_exchange(&offer, &answer, &seen);
    }
    printf("rounded up in exchanges: alone %u, above RS or RR %u, below %u\n", seen.alone, seen.above, seen.below);
    assert(seen.alone >= 1000 && seen.above >= 300 && seen.below >= 100);
    tests++;
}

/* Components of the row whose RTCP rate is a twentieth that was rounded up. */
static unsigned rounded_in(const struct second_row *row)
{
    unsigned count = 0;

    for (unsigned i = 0; i < row->count; i++) {
        const struct second_way *ways[] = { &row->components[i].up, &row->components[i].down };
        for (unsigned j = 0; j < 2; j++)
            count += ways[j]->media % 20 != 0 && ways[j]->rtcp == ((uint64_t)ways[j]->media + 19) / 20;
    }
    return count;
}

static void test_generated_books(void)
{
    static struct second_evening evening = { .seed = 6 };
    unsigned long rounded = 0;

    for (int i = 0; i < 100; i++) {
        struct second_row rows[SECOND_BOOK_ROWS] = { 0 };
        second_start_evening(&evening);
        for (int j = 0; j < 200; j++) {
            uint8_t out[600];
            struct second_ask ask;
            second_generate_ask(&evening, rows, &ask);
            struct second_reply reply = second_play((struct second_book) { rows, evening.rows }, &ask, out);
            if (ask.letter == SECOND_ANSWER && reply.refusal == 0)
                rounded += rounded_in(&rows[ask.session]);
        }
    }
    printf("rounded up in books: %lu\n", rounded);
    assert(rounded >= 300);
    tests++;
}

static void test_generated_evenings(void)
{
    static uint8_t file[SECOND_GENERATED_FILE_BYTES];
    static struct second_calls calls;
    unsigned long rounded = 0;
    uint64_t seed = 7;

    for (int i = 0; i < 60; i++) {
        size_t len = second_generate_evening(&seed, file);
        struct second_row rows[SECOND_BOOK_ROWS] = { 0 };
        if (!second_read_calls(file, len, &calls))
            continue;
        for (uint32_t j = 0; j < calls.call_count; j++) {
            struct second_ask ask = second_call_ask(&calls, &calls.calls[j]);
            struct second_reply reply = second_play((struct second_book) { rows, SECOND_BOOK_ROWS }, &ask, NULL);
            if (ask.letter == SECOND_ANSWER && reply.refusal == 0)
                rounded += rounded_in(&rows[ask.session]);
        }
    }
    printf("rounded up in evenings: %lu\n", rounded);
    assert(rounded >= 100);
    tests++;
}

int main(void)
{
    test_generated_texts();
    test_generated_exchanges(false);
    test_generated_exchanges(true);
    test_generated_books();
    test_generated_evenings();
    printf("second: %u tests of generated rates passed\n", tests);
    return 0;
}
