#include "../host/shared/rows.h"
#include "../second/generate/write_text.h"
#include "bench.h"
#include "measure.h"
#include "sections.h"

#include <stdio.h>
#include <string.h>

/* Timed: what deriving reads of a state, and deriving from it, an offer and an answer, all by value, without a book. */

enum { TIMES = 200 };

/* One exchange as each side takes it; the state before is what the same exchange left. */
struct sample {
    struct frumxadda_descriptions offer, answer;
    struct frumxadda_held was;
    struct frumxadda_before before;
    struct second_text first, then;
    struct second_state state;
    struct second_before reads;
};

static const struct frumxadda_settings settings = { { 100000, 90000 }, { 5000, 4000 }, { 1000000, 1000000 } };
static const struct second_settings second_settings = { 100000, 90000, 5000, 4000 };

static void read_both(unsigned count, int answer, struct frumxadda_descriptions *said, struct second_text *text)
{
    uint8_t bytes[SECOND_WRITTEN_BYTES];
    size_t len = write_sections(count, answer, bytes);
    struct frumxadda_reading read = frumxadda_read(bytes, len);

    said->count = read.count;
    memcpy(said->media, read.media, sizeof said->media);
    second_read_text(bytes, len, text);
}

static void derive_both(struct sample *sample, uint64_t origin)
{
    sample->was = frumxadda_derive(settings, origin, sample->before, sample->offer, sample->answer);
    sample->state = second_derive(&second_settings, origin, &sample->reads, second_sections(&sample->first),
        second_sections(&sample->then));
    sample->before = frumxadda_before(sample->was);
    sample->reads = second_before(&sample->state);
}

static bool alike(const struct sample *sample)
{
    bool same = sample->was.count == sample->state.count && sample->was.kept == sample->state.kept;

    for (unsigned i = 0; i < 8; i++) {
        struct frumxadda_component component = component_from_second(&sample->state.components[i]);
        same = same && memcmp(&component, &sample->was.components[i], sizeof component) == 0;
    }
    return same;
}

static uint64_t derive_proved(void *of, unsigned long times)
{
    const struct sample *sample = of;
    uint64_t sum = 0;

    for (unsigned long i = 0; i < times; i++) {
        struct frumxadda_held held = frumxadda_derive(settings, i & 1, sample->before, sample->offer, sample->answer);
        sum += held.kept + held.components[7].class_number + held.components[0].up.media;
    }
    return sum;
}

static uint64_t derive_second(void *of, unsigned long times)
{
    const struct sample *sample = of;
    uint64_t sum = 0;

    for (unsigned long i = 0; i < times; i++) {
        struct second_state state = second_derive(&second_settings, i & 1, &sample->reads, second_sections(&sample->first),
            second_sections(&sample->then));
        sum += state.kept + state.components[7].class_number + state.components[0].up.media;
    }
    return sum;
}

static uint64_t before_proved(void *of, unsigned long times)
{
    const struct sample *sample = of;
    uint64_t sum = 0;

    for (unsigned long i = 0; i < times; i++)
        sum += frumxadda_before(sample->was).components[i & 7].live;
    return sum;
}

static uint64_t before_second(void *of, unsigned long times)
{
    const struct sample *sample = of;
    uint64_t sum = 0;

    for (unsigned long i = 0; i < times; i++)
        sum += second_before(&sample->state).components[i & 7].live;
    return sum;
}

static bool bench_count(unsigned count, const char *derive_name, const char *before_name)
{
    static struct sample sample;

    memset(&sample, 0, sizeof sample);
    read_both(count, 0, &sample.offer, &sample.first);
    read_both(count, 1, &sample.answer, &sample.then);
    derive_both(&sample, 0);
    bool same = alike(&sample);
    derive_both(&sample, 1);
    if (!same || !alike(&sample)) {
        printf("derive: the two programs differ\n");
        return false;
    }
    print_measured(derive_name, measure(derive_proved, derive_second, &sample, TIMES));
    print_measured(before_name, measure(before_proved, before_second, &sample, TIMES));
    return true;
}

bool bench_derive(void)
{
    return bench_count(1, "derive, 1 component", "what it reads of 1 before")
        && bench_count(8, "derive, 8 components", "what it reads of 8 before");
}
