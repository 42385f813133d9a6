#include "../server/text.h"
#include "print.h"

#include <stdio.h>

static const char *const kinds[] = { "", "audio", "video", "application", "data", "control", "other" };
static const char *const transports[] = { "", "RTP/AVP", "udp" };
static const char *const directions[] = { "", "sendrecv", "sendonly", "recvonly", "inactive" };

static void print_rate(const char *name, bool has, uint32_t rate)
{
    if (has)
        printf(" %s %lu", name, (unsigned long)rate);
    else
        printf(" %s -", name);
}

static void print_media(unsigned number, const struct second_media *media)
{
    printf("%u %s %s %u ", number, kinds[media->kind], transports[media->transport], (unsigned)media->port);
    if (media->has_address)
        printf("%u.%u.%u.%u", (unsigned)(media->address >> 24), (unsigned)(media->address >> 16 & 255),
            (unsigned)(media->address >> 8 & 255), (unsigned)(media->address & 255));
    else
        printf("-");
    printf(" %s", directions[media->direction]);
    print_rate("requested", media->has_requested, media->requested);
    print_rate("RS", media->has_rs, media->rs);
    print_rate("RR", media->has_rr, media->rr);
    printf(" m %u %u", (unsigned)media->m_start, (unsigned)media->m_end);
    if (media->d_end)
        printf(" a %u %u\n", (unsigned)media->d_start, (unsigned)media->d_end);
    else
        printf(" a - -\n");
}

static void print_text(unsigned long number, const struct second_file_text *text)
{
    struct second_text answer;

    second_read_text(text->bytes, text->len, &answer);
    if (answer.refusal) {
        printf("text %lu refused %u %u\n", number, (unsigned)answer.refusal, (unsigned)answer.place);
        return;
    }
    printf("text %lu good %u\n", number, (unsigned)answer.count);
    for (uint32_t i = 0; i < answer.count; i++)
        print_media(i + 1, &answer.media[i]);
}

int print_texts(struct second_file *file)
{
    for (unsigned long number = 1; file->at < file->len; number++) {
        struct second_file_text text;
        if (!second_file_text(file, &text)) {
            puts("bad file");
            return 1;
        }
        print_text(number, &text);
    }
    return 0;
}
