#define _DEFAULT_SOURCE
#include "../../second/generate/random.h"
#include "check.h"

#include <signal.h>
#include <stdio.h>
#include <stdlib.h>
#include <string.h>
#include <unistd.h>

unsigned long seen[REFUSAL_NUMBERS];
unsigned long exchanges_compared, derivations_compared;

/* A reader went past a text: no return is possible, so the last words are printed here. */
static void past_the_text(int signal)
{
    (void)signal;
    printf("reading past the end of a text\n");
    print_input();
    fflush(stdout);
    _exit(1);
}

void compare_start(void)
{
    make_guard(&now.offer);
    make_guard(&now.answer);
    signal(SIGSEGV, past_the_text);
}

static void compare_line(uint64_t component)
{
    static const char labels[] = "refusal place failed text start end";
    struct frumxadda_decision one = frumxadda_deciding_line(now.offer.text, now.offer.len, now.answer.text,
        now.answer.len, component);
    struct second_decision other = second_deciding_line(now.offer.text, now.offer.len, now.answer.text,
        now.answer.len, component);
    struct figures input = { "component", 1, { component } };
    struct figures proved = { labels, 6, { one.refusal, one.place, one.failed, one.text, one.start, one.end } };
    struct figures second = { labels, 6, { other.refusal, other.place, other.failed, other.text, other.start, other.end } };

    check("the deciding line", NULL, &input, &proved, &second);
    seen[one.refusal]++;
}

uint64_t compare_fit(const struct texts *offer, const struct texts *answer)
{
    struct frumxadda_misfit one = frumxadda_fit(offer->proved, answer->proved);
    struct second_fit other = second_fit(offer->second, answer->second);
    struct figures input = { "counts", 2, { offer->proved.count, answer->proved.count } };
    struct figures proved = { "refusal place", 2, { one.refusal, one.place } };
    struct figures second = { "refusal place", 2, { other.refusal, other.place } };

    check("the fit", NULL, &input, &proved, &second);
    seen[one.refusal]++;
    return one.refusal;
}

void compare_derived(const struct derivation *derivation, struct sides *after)
{
    const struct frumxadda_settings *from = &derivation->settings;
    struct second_settings settings = { from->media.up, from->media.down, from->rtcp.up, from->rtcp.down };
    struct figures input, proved, second;

    after->proved = frumxadda_derive(derivation->settings, derivation->origin, derivation->before.proved,
        derivation->offer.proved, derivation->answer.proved);
    after->second = second_derive(&settings, derivation->origin, &derivation->before.second, derivation->offer.second,
        derivation->answer.second);
    proved_before(&derivation->before.proved, &input);
    proved_state(&after->proved, &proved);
    second_state(&after->second, &second);
    check("the derived state", NULL, &input, &proved, &second);
    derivations_compared++;
}

static struct texts both_texts(const struct frumxadda_reading *read, const struct second_text *text)
{
    struct texts texts = { .proved = { .count = read->count }, .second = second_sections(text) };

    memcpy(texts.proved.media, read->media, sizeof texts.proved.media);
    return texts;
}

static void set_count(struct texts *texts, uint32_t count)
{
    texts->proved.count = count;
    texts->second.count = count;
}

/* Counts above 8; a text has none, so that they are put in. */
static void compare_large_counts(struct derivation *derivation, uint64_t *seed)
{
    static const uint32_t counts[] = { 10, 16, 264, 65544, (uint32_t)1 << 31, UINT32_MAX };
    uint32_t count = counts[second_draw(seed) % 6];
    struct sides was = *now.was, ignored;
    bool eight = derivation->offer.proved.count == 8;

    set_count(&derivation->offer, count);
    compare_fit(&derivation->offer, &derivation->answer);
    set_count(&derivation->answer, count - 1);
    compare_fit(&derivation->offer, &derivation->answer);
    set_count(&derivation->answer, count);
    if (compare_fit(&derivation->offer, &derivation->answer) != 0 || !eight)
        return;
    if (was.second.count == 8)
        was.second.count = was.proved.count = count;
    compare_before(&was, &derivation->before);
    compare_derived(derivation, &ignored);
}

static void set_exchange(const struct exchange *exchange, const struct sides *sides)
{
    guard_text(&now.offer, exchange->offer, exchange->offer_len);
    guard_text(&now.answer, exchange->answer, exchange->answer_len);
    now.settings = exchange->settings;
    now.origin = exchange->origin;
    now.was = sides;
    now.given = true;
}

static void check_unchanged(const struct exchange *exchange)
{
    if (guard_intact(&now.offer) && guard_intact(&now.answer)
        && (exchange->offer_len == 0 || memcmp(now.offer.text, exchange->offer, exchange->offer_len) == 0)
        && (exchange->answer_len == 0 || memcmp(now.answer.text, exchange->answer, exchange->answer_len) == 0))
        return;
    printf("a text was changed\n");
    print_input();
    exit(1);
}

static void compare_reading(const struct frumxadda_reading *read, const struct second_text *text)
{
    struct figures proved = { "refusal place count", 3, { read->refusal, read->place, read->count } };
    struct figures second = { "refusal place count", 3, { text->refusal, text->place, text->count } };

    check("the reading of a text", NULL, NULL, &proved, &second);
}

static uint64_t compare_texts(const struct exchange *exchange, struct sides *after, uint64_t *seed)
{
    struct second_text first, then;

    struct frumxadda_reading offered = frumxadda_read(now.offer.text, now.offer.len);
    struct frumxadda_reading answered = frumxadda_read(now.answer.text, now.answer.len);
    second_read_text(now.offer.text, now.offer.len, &first);
    second_read_text(now.answer.text, now.answer.len, &then);
    compare_reading(&offered, &first);
    compare_reading(&answered, &then);
    for (uint64_t component = 0; component <= first.count + 1; component++)
        compare_line(component);
    compare_line(UINT64_MAX - second_draw(seed) % 256);
    check_unchanged(exchange);
    if (first.refusal || then.refusal)
        return first.refusal ? first.refusal : then.refusal;

    struct derivation derivation = { .settings = exchange->settings, .origin = exchange->origin,
        .offer = both_texts(&offered, &first), .answer = both_texts(&answered, &then) };
    uint64_t refusal = compare_fit(&derivation.offer, &derivation.answer);
    if (refusal == 0) {
        compare_before(now.was, &derivation.before);
        compare_derived(&derivation, after);
        compare_state(after, seed);
    }
    compare_large_counts(&derivation, seed);
    return refusal;
}

uint64_t compare_exchange(const struct exchange *exchange, struct sides *sides, uint64_t *seed)
{
    struct sides after;

    set_exchange(exchange, sides);
    uint64_t refusal = compare_texts(exchange, &after, seed);
    if (refusal == 0)
        *sides = after;
    now.given = false;
    exchanges_compared++;
    return refusal;
}
