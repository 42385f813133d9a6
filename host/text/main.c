#define _DEFAULT_SOURCE
#include "../../second/generate/text.h"
#include "../../second/server/text.h"
#include "../shared/guard.h"
#include "../shared/options.h"
#include "../shared/print_text.h"
#include "../shared/rows.h"

#include <frumxadda.h>
#include <signal.h>
#include <stdbool.h>
#include <stdio.h>
#include <stdlib.h>
#include <string.h>
#include <unistd.h>

/* Both answers about one text. The structs have no padding, so bytes stand for fields. */
struct answers {
    struct frumxadda_reading proved, second;
    uint64_t proved_number, second_number;
    bool unchanged;
};

/* The text being read. */
static struct guarded guarded;

static struct frumxadda_reading from_second(const struct second_text *answer)
{
    struct frumxadda_reading read;

    memset(&read, 0, sizeof read);
    read.refusal = (uint16_t)answer->refusal;
    read.place = (uint16_t)answer->place;
    read.count = answer->count;
    for (int i = 0; i < 8; i++) {
        const struct second_media *media = &answer->media[i];
        read.media[i] = media_from_second(media);
        read.spots[i] = (struct frumxadda_spot) { media->m_start, media->m_end, media->d_start, media->d_end };
    }
    return read;
}

/* Both readers read the text from a copy that ends at the guard. */
static void ask(const uint8_t *text, size_t len, struct answers *answers)
{
    struct second_text second;

    guard_text(&guarded, text, len);
    answers->proved = frumxadda_read(guarded.text, len);
    answers->proved_number = frumxadda_text(guarded.text, len);
    answers->unchanged = guard_intact(&guarded) && (len == 0 || memcmp(guarded.text, text, len) == 0);
    second_read_text(guarded.text, len, &second);
    answers->second = from_second(&second);
    answers->second_number = second_text(guarded.text, len);
}

static bool agree(const struct answers *answers)
{
    return answers->unchanged && answers->proved_number == answers->second_number
        && memcmp(&answers->proved, &answers->second, sizeof answers->proved) == 0;
}

static bool differs(const uint8_t *text, size_t len)
{
    struct answers answers;

    ask(text, len, &answers);
    return !agree(&answers);
}

/* Takes bytes from, up to to, out of the text if a difference persists without them. */
static bool take_out(uint8_t *text, size_t *len, size_t from, size_t to)
{
    static uint8_t shorter[TEXT_ROOM];

    memcpy(shorter, text, from);
    memcpy(shorter + from, text + to, *len - to);
    if (!differs(shorter, *len - (to - from)))
        return false;
    *len -= to - from;
    memcpy(text, shorter, *len);
    return true;
}

/* One round over all lines, or over all bytes; whether any could go. */
static bool shrink_round(uint8_t *text, size_t *len, bool lines)
{
    bool any = false;

    for (size_t from = 0; from < *len;) {
        size_t to = from + 1;
        while (lines && to < *len && text[to - 1] != '\n')
            to++;
        if (take_out(text, len, from, to))
            any = true;
        else
            from = to;
    }
    return any;
}

static void shrink(uint8_t *text, size_t *len)
{
    bool lines, bytes;

    do {
        lines = shrink_round(text, len, true);
        bytes = shrink_round(text, len, false);
    } while (lines || bytes);
}

/* A reader went past the text: no return is possible, so the last words are printed here. */
static void past_the_text(int signal)
{
    (void)signal;
    printf("reading past the end of the text\n");
    print_text("text", guarded.text, guarded.len);
    fflush(stdout);
    _exit(1);
}

static void print_answer(const char *name, const struct frumxadda_reading *read, uint64_t number)
{
    printf("%s: refusal %u place %u count %u, packed %llu\n", name, (unsigned)read->refusal, (unsigned)read->place,
        (unsigned)read->count, (unsigned long long)number);
    for (int i = 0; i < 8; i++) {
        const struct frumxadda_media *media = &read->media[i];
        const struct frumxadda_spot *spot = &read->spots[i];
        printf("  %d kind %u transport %u direction %u port %u address %u %08lx", i + 1, (unsigned)media->kind,
            (unsigned)media->transport, (unsigned)media->direction, (unsigned)media->port, (unsigned)media->known,
            (unsigned long)media->address);
        printf(" requested %u %lu RS %u %lu RR %u %lu", (unsigned)media->requestedgiven, (unsigned long)media->requested,
            (unsigned)media->rsgiven, (unsigned long)media->rs, (unsigned)media->rrgiven, (unsigned long)media->rr);
        printf(" m %u %u a %u %u\n", (unsigned)spot->start, (unsigned)spot->end, (unsigned)spot->from,
            (unsigned)spot->to);
    }
}

static void report(const uint8_t *text, size_t len)
{
    static uint8_t small[TEXT_ROOM];
    struct answers answers;

    memcpy(small, text, len);
    shrink(small, &len);
    ask(small, len, &answers);
    print_text("text", small, len);
    if (!answers.unchanged)
        printf("frumxadda changed the text\n");
    print_answer("frumxadda", &answers.proved, answers.proved_number);
    print_answer("second", &answers.second, answers.second_number);
    exit(1);
}

/* Returns the refusal number that both gave. */
static unsigned compare(const uint8_t *text, size_t len)
{
    struct answers answers;

    ask(text, len, &answers);
    if (!agree(&answers))
        report(text, len);
    return (unsigned)answers.proved.refusal;
}

#define V "v=0\n"
#define C "c=IN IP4 192.0.2.1\n"
#define M "m=audio 0 RTP/AVP 0\n"

static const struct fixed {
    const char *bytes;
    size_t len;
    unsigned refusal, place, count;
} fixed[] = {
#define TEXT(text, refusal, place, count) { text, sizeof(text) - 1, refusal, place, count }
    TEXT("", 2, 1, 0),
    TEXT(V, 0, 0, 0),
    TEXT("v=0", 2, 1, 0),
    TEXT(V "\n", 2, 2, 0),
    TEXT(V "s=\0\n", 2, 2, 0),
    TEXT(V C "m=audio 40000 RTP/AVP 0\nb=AS:64\n", 0, 0, 1),
    TEXT(V C "m=audio 65534 RTP/AVP 0\nb=AS:4294967\n", 0, 0, 1),
    TEXT(V C "m=audio 65534 RTP/AVP 0\nb=AS:4294968\n", 7, 4, 0),
    TEXT(V C "m=video 40000 RTP/AVP 0\nb=TIAS:4294967295\n", 0, 0, 1),
    TEXT(V C "m=video 40000 RTP/AVP 0\nb=TIAS:4294967296\n", 7, 4, 0),
    TEXT(V C "m=video 40000 RTP/AVP 0\nb=TIAS:64001\nb=AS:64\nb=TIAS:64001\n", 7, 6, 0),
    TEXT(V C "m=audio 65535 RTP/AVP 0\n", 3, 3, 0),
    TEXT(V C "m=audio 65535 udp 0\n", 0, 0, 1),
    TEXT(V C "m=audio 65535 TCP 0\n", 4, 3, 0),
    TEXT(V M M M M M M M M, 0, 0, 8),
    TEXT(V M M M M M M M M M, 5, 10, 0),
    TEXT(V C C, 6, 3, 0),
    TEXT(V M "a=sendonly\r\na=sendonly\r\n", 8, 4, 0),
    TEXT(V "m=audio 1 udp 0\n", 9, 2, 0),
#undef TEXT
};

static const size_t fixed_count = sizeof fixed / sizeof fixed[0];

/* Each refusal number that the fixed texts give is counted in seen. */
static void run_fixed(unsigned long *seen)
{
    static uint8_t zeros[4097];

    for (size_t i = 0; i < fixed_count; i++) {
        const uint8_t *text = (const uint8_t *)fixed[i].bytes;
        struct answers answers;
        seen[compare(text, fixed[i].len)]++;
        ask(text, fixed[i].len, &answers);
        if (answers.proved.refusal == fixed[i].refusal && answers.proved.place == fixed[i].place
            && answers.proved.count == fixed[i].count)
            continue;
        print_text("text", text, fixed[i].len);
        printf("known: refusal %u place %u count %u\n", fixed[i].refusal, fixed[i].place, fixed[i].count);
        print_answer("both", &answers.proved, answers.proved_number);
        exit(1);
    }
    seen[compare(zeros, sizeof zeros)]++;
}

static void run_generated(uint64_t seed, unsigned long count, unsigned long *seen)
{
    static uint8_t text[SECOND_GENERATED_BYTES];

    for (unsigned long i = 0; i < count; i++) {
        size_t len = second_generate_text(&seed, text, sizeof text);
        seen[compare(text, len)]++;
    }
}

int main(int argc, char **argv)
{
    uint64_t seed = 1;
    unsigned long count = 100000, seen[10] = { 0 };
    int status = 0;

    read_options("text_host", argc, argv, &seed, &count);
    make_guard(&guarded);
    signal(SIGSEGV, past_the_text);
    run_fixed(seen);
    run_generated(seed, count, seen);
    for (int number = 0; number < 10; number++) {
        printf("refusal %d: %lu\n", number, seen[number]);
        if (seen[number] == 0)
            status = 1;
    }
    printf("host: %lu texts compared, 0 differences\n", (unsigned long)fixed_count + 1 + count);
    return status;
}
