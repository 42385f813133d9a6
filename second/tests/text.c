#undef NDEBUG
#include "../generate/text.h"
#include "../server/text.h"

#include <assert.h>
#include <stdbool.h>
#include <stdio.h>
#include <stdlib.h>
#include <string.h>

struct trial {
    const char *bytes;
    size_t len;
    uint32_t refusal, place, count;
};

#define TEXT(text, refusal, place, count) { text, sizeof(text) - 1, refusal, place, count }
#define V "v=0\n"
#define C "c=IN IP4 192.0.2.1\n"
#define M "m=audio 0 RTP/AVP 0\n"
#define L "m=audio 40000 RTP/AVP 0\n"

static unsigned tests;

static const struct trial line_forms[] = {
    TEXT("", 2, 1, 0),
    TEXT("\n", 2, 1, 0),
    TEXT("\r\n", 2, 1, 0),
    TEXT("\r", 2, 1, 0),
    TEXT("v", 2, 1, 0),
    TEXT("v=", 2, 1, 0),
    TEXT("v=0", 2, 1, 0),
    TEXT("v=0\r", 2, 1, 0),
    TEXT("v=0\n", 0, 0, 0),
    TEXT("v=0\r\n", 0, 0, 0),
    TEXT("v=\n", 2, 1, 0),
    TEXT("v=1\n", 2, 1, 0),
    TEXT("v=00\n", 2, 1, 0),
    TEXT("v=0 \n", 2, 1, 0),
    TEXT(" v=0\n", 2, 1, 0),
    TEXT("V=0\n", 2, 1, 0),
    TEXT("o=0\n", 2, 1, 0),
    TEXT("s=-\nv=0\n", 2, 1, 0),
    TEXT("v=0\r\r\n", 2, 1, 0),
    TEXT("v=0\0\n", 2, 1, 0),
    TEXT(V "v=1\nv=\nv=0\n", 0, 0, 0),
    TEXT(V "\n", 2, 2, 0),
    TEXT(V "\r\n", 2, 2, 0),
    TEXT(V "s=-", 2, 2, 0),
    TEXT(V "s=-\r", 2, 2, 0),
    TEXT(V "s=-\r\ns=-\n", 0, 0, 0),
    TEXT(V "s=a\rb\n", 2, 2, 0),
    TEXT(V "s=-\r\r\n", 2, 2, 0),
    TEXT(V "s=-\n\r\n", 2, 3, 0),
    TEXT(V "s=a\0b\n", 2, 2, 0),
    TEXT(V "s=\0", 2, 2, 0),
    TEXT(V "s=-\ns=\r", 2, 3, 0),
    TEXT(V "s=\n", 0, 0, 0),
    TEXT(V "s\n", 2, 2, 0),
    TEXT(V "=\n", 2, 2, 0),
    TEXT(V "s-=\n", 2, 2, 0),
    TEXT(V "`=-\n", 2, 2, 0),
    TEXT(V "a=-\n", 0, 0, 0),
    TEXT(V "z=-\n", 0, 0, 0),
    TEXT(V "{=-\n", 2, 2, 0),
    TEXT(V "S=-\n", 2, 2, 0),
    TEXT(V "\xe1=-\n", 2, 2, 0),
    TEXT(V "s=\t\x01\x0b\x0c\x7f\x80\xff =\n", 0, 0, 0),
    TEXT(V "c=bad\0\n", 2, 2, 0),
    TEXT(V "c=bad\nS\n", 6, 2, 0),
};

static const struct trial media_lines[] = {
    TEXT(V "m=audio 0 RTP/AVP 0\n", 0, 0, 1),
    TEXT(V "m=x 0 udp x\n", 0, 0, 1),
    TEXT(V "m=\n", 3, 2, 0),
    TEXT(V "m=audio\n", 3, 2, 0),
    TEXT(V "m=audio \n", 3, 2, 0),
    TEXT(V "m=audio 0\n", 3, 2, 0),
    TEXT(V "m=audio 0 \n", 3, 2, 0),
    TEXT(V "m=audio 0 RTP/AVP\n", 3, 2, 0),
    TEXT(V "m=audio 0 RTP/AVP \n", 3, 2, 0),
    TEXT(V "m=audio 0 RTP/AVP 0 \n", 3, 2, 0),
    TEXT(V "m=audio 0 RTP/AVP 0 8 101\n", 0, 0, 1),
    TEXT(V "m=audio 0 RTP/AVP 0  8\n", 3, 2, 0),
    TEXT(V "m=audio 0 RTP/AVP  0\n", 3, 2, 0),
    TEXT(V "m=audio 0  RTP/AVP 0\n", 3, 2, 0),
    TEXT(V "m=audio  0 RTP/AVP 0\n", 3, 2, 0),
    TEXT(V "m= audio 0 RTP/AVP 0\n", 3, 2, 0),
    TEXT(V "m= 0 RTP/AVP 0\n", 3, 2, 0),
    TEXT(V "m=audio\t0 RTP/AVP 0\n", 3, 2, 0),
    TEXT(V "m=audio 0 RTP/AVP \t\n", 0, 0, 1),
    TEXT(V C "m=audio 65534 RTP/AVP 0\n", 0, 0, 1),
    TEXT(V C "m=audio 65535 RTP/AVP 0\n", 3, 3, 0),
    TEXT(V C "m=audio 65536 RTP/AVP 0\n", 3, 3, 0),
    TEXT(V C "m=audio 65534 udp 0\n", 0, 0, 1),
    TEXT(V C "m=audio 65535 udp 0\n", 0, 0, 1),
    TEXT(V C "m=audio 65536 udp 0\n", 3, 3, 0),
    TEXT(V C "m=audio 65535 TCP 0\n", 4, 3, 0),
    TEXT(V C "m=audio 65536 TCP 0\n", 3, 3, 0),
    TEXT(V C "m=audio 99999 udp 0\n", 3, 3, 0),
    TEXT(V C "m=audio 100000 udp 0\n", 3, 3, 0),
    TEXT(V "m=audio 00000 udp 0\n", 0, 0, 1),
    TEXT(V "m=audio 000000 udp 0\n", 3, 2, 0),
    TEXT(V C "m=audio 00080 udp 0\n", 0, 0, 1),
    TEXT(V C "m=audio 40000/2 RTP/AVP 0\n", 3, 3, 0),
    TEXT(V C "m=audio -1 udp 0\n", 3, 3, 0),
    TEXT(V C "m=audio +1 udp 0\n", 3, 3, 0),
    TEXT(V C "m=audio 4a udp 0\n", 3, 3, 0),
    TEXT(V C "m=audio / udp 0\n", 3, 3, 0),
    TEXT(V C "m=audio : udp 0\n", 3, 3, 0),
    TEXT(V "m=audio 0 TCP\n", 3, 2, 0),
    TEXT(V "m=audio 0 TCP 0\n", 4, 2, 0),
    TEXT(V "m=audio 0 TCP 0 \n", 3, 2, 0),
    TEXT(V "m=audio 0 UDP 0\n", 4, 2, 0),
    TEXT(V "m=audio 0 rtp/avp 0\n", 4, 2, 0),
    TEXT(V "m=audio 0 RTP/AVPF 0\n", 4, 2, 0),
    TEXT(V "m=audio 0 RTP/SAVP 0\n", 4, 2, 0),
    TEXT(V "m=audio 0 RTP/AV 0\n", 4, 2, 0),
    TEXT(V "m=audio 0 udp\t 0\n", 4, 2, 0),
    TEXT(V "m=audio 0 UDP 0\0\n", 2, 2, 0),
    TEXT(V M M M M M M M M, 0, 0, 8),
    TEXT(V M M M M M M M M M, 5, 10, 0),
    TEXT(V M M M M M M M M "m=\n", 5, 10, 0),
    TEXT(V M M M M M M M M "m=audio 0 TCP 0\n", 5, 10, 0),
    TEXT(V M M M M M M M M "m=audio 0 udp 0\0\n", 2, 10, 0),
    TEXT(V M M M M M M M M "m=audio 0 udp 0", 2, 10, 0),
    TEXT(V M M M M M M M L M, 5, 10, 0),
};

static const struct trial address_lines[] = {
    TEXT(V C, 0, 0, 0),
    TEXT(V C L, 0, 0, 1),
    TEXT(V L C, 0, 0, 1),
    TEXT(V C L C, 0, 0, 1),
    TEXT(V C C, 6, 3, 0),
    TEXT(V C L C C, 6, 5, 0),
    TEXT(V M C C, 6, 4, 0),
    TEXT(V M "c=IN IP6 ::1\n", 6, 3, 0),
    TEXT(V "c=IN IP4 0.0.0.0\n" L, 0, 0, 1),
    TEXT(V "c=IN IP4 255.255.255.255\n", 0, 0, 0),
    TEXT(V "c=IN IP4 256.0.0.0\n", 6, 2, 0),
    TEXT(V "c=IN IP4 0.256.0.0\n", 6, 2, 0),
    TEXT(V "c=IN IP4 0.0.256.0\n", 6, 2, 0),
    TEXT(V "c=IN IP4 0.0.0.256\n", 6, 2, 0),
    TEXT(V "c=IN IP4 001.002.003.004\n", 0, 0, 0),
    TEXT(V "c=IN IP4 0001.2.3.4\n", 6, 2, 0),
    TEXT(V "c=IN IP4 1.2.3.0004\n", 6, 2, 0),
    TEXT(V "c=IN IP4 1.2.3\n", 6, 2, 0),
    TEXT(V "c=IN IP4 1.2.3.\n", 6, 2, 0),
    TEXT(V "c=IN IP4 1.2.3.4.\n", 6, 2, 0),
    TEXT(V "c=IN IP4 1.2.3.4.5\n", 6, 2, 0),
    TEXT(V "c=IN IP4 .2.3.4\n", 6, 2, 0),
    TEXT(V "c=IN IP4 1..3.4\n", 6, 2, 0),
    TEXT(V "c=IN IP4 1.2.3.4/127\n", 6, 2, 0),
    TEXT(V "c=IN IP4 1.2.3.4 \n", 6, 2, 0),
    TEXT(V "c=IN IP4 1.2.3.4\t\n", 6, 2, 0),
    TEXT(V "c=IN IP4  1.2.3.4\n", 6, 2, 0),
    TEXT(V "c=IN IP4 1.2.3.a\n", 6, 2, 0),
    TEXT(V "c=IN IP4 1.2.3./\n", 6, 2, 0),
    TEXT(V "c=IN IP4 1.2.3.:\n", 6, 2, 0),
    TEXT(V "c=IN IP6 1.2.3.4\n", 6, 2, 0),
    TEXT(V "c=in ip4 1.2.3.4\n", 6, 2, 0),
    TEXT(V "c=IN IP4 \n", 6, 2, 0),
    TEXT(V "c=IN IP4\n", 6, 2, 0),
    TEXT(V "c=\n", 6, 2, 0),
    TEXT(V L, 9, 2, 0),
    TEXT(V M, 0, 0, 1),
    TEXT(V "s=-\r\n" M "a=x\r\n" L "a=y\n" L, 9, 5, 0),
    TEXT(V L C L, 9, 4, 0),
    TEXT(V L L C, 9, 2, 0),
    TEXT(V L "b=AS:x\n", 7, 3, 0),
    TEXT(V C "m=audio 1 RTP/AVP 0\nc=IN IP4 1.2.3.4\n" L, 0, 0, 2),
};

static const struct trial section_lines[] = {
    TEXT(V M "b=AS:0\nb=RS:0\nb=RR:0\n", 0, 0, 1),
    TEXT(V M "b=AS:4294967\n", 0, 0, 1),
    TEXT(V M "b=AS:4294968\n", 7, 3, 0),
    TEXT(V M "b=AS:0004294967\n", 0, 0, 1),
    TEXT(V M "b=AS:00004294967\n", 7, 3, 0),
    TEXT(V M "b=AS:4294967295\n", 7, 3, 0),
    TEXT(V M "b=RS:4294967295\n", 0, 0, 1),
    TEXT(V M "b=RS:4294967296\n", 7, 3, 0),
    TEXT(V M "b=RR:4294967295\n", 0, 0, 1),
    TEXT(V M "b=RR:4294967296\n", 7, 3, 0),
    TEXT(V M "b=RS:9999999999\n", 7, 3, 0),
    TEXT(V M "b=RS:0000000001\n", 0, 0, 1),
    TEXT(V M "b=RS:00000000001\n", 7, 3, 0),
    TEXT(V M "b=RR:00000000000\n", 7, 3, 0),
    TEXT(V M "b=RR:18446744073709551616\n", 7, 3, 0),
    TEXT(V M "b=AS:\n", 7, 3, 0),
    TEXT(V M "b=RS:\n", 7, 3, 0),
    TEXT(V M "b=RR:\n", 7, 3, 0),
    TEXT(V M "b=AS:-1\n", 7, 3, 0),
    TEXT(V M "b=AS:+1\n", 7, 3, 0),
    TEXT(V M "b=AS: 1\n", 7, 3, 0),
    TEXT(V M "b=AS:1 \n", 7, 3, 0),
    TEXT(V M "b=AS:/\n", 7, 3, 0),
    TEXT(V M "b=AS::\n", 7, 3, 0),
    TEXT(V M "b=AS:1\nb=AS:1\n", 7, 4, 0),
    TEXT(V M "b=RS:0\nb=RS:0\n", 7, 4, 0),
    TEXT(V M "b=RR:0\nb=RR:1\n", 7, 4, 0),
    TEXT(V M "b=AS:1\n" M "b=AS:2\n", 0, 0, 2),
    TEXT(V M "b=AS\nb=as:64\nb=X-AS:1\nb=\nb=A\nb=RS\nb=CT:x\nb=AR:x\nb=SS:\nb= AS:x\n", 0, 0, 1),
    TEXT(V "b=AS:x\nb=AS:1\nb=AS:1\nb=RS:\n" M, 0, 0, 1),
    TEXT(V M "a=sendrecv\n", 0, 0, 1),
    TEXT(V M "a=sendonly\na=sendonly\n", 8, 4, 0),
    TEXT(V M "a=sendrecv\na=inactive\n", 8, 4, 0),
    TEXT(V M "a=recvonly\r\ns=-\r\na=recvonly\r\n", 8, 5, 0),
    TEXT(V M "a=sendonly\n" M "a=sendonly\n", 0, 0, 2),
    TEXT(V M "a=sendonly\na=sendonly \na=Sendonly\na=sendonl\na=\na=sendonlyx\n", 0, 0, 1),
    TEXT(V "a=sendonly\na=inactive\na=inactive\n" M, 8, 3, 0),
    TEXT(V "a=inactive\n" M "a=inactive\n", 0, 0, 1),
    TEXT(V L "a=inactive\na=inactive\n", 8, 4, 0),
    TEXT(V M "a=inactive\na=inactive\0\n", 2, 4, 0),
};

/* A copy that ends where its heap buffer ends. */
static void read_copy(const void *bytes, size_t len, struct second_text *out)
{
    uint8_t *copy = calloc(len, 1);

    assert(copy || len == 0);
    if (len > 0)
        memcpy(copy, bytes, len);
    second_read_text(copy, len, out);
    assert(second_text(copy, len) == out->refusal + 256ull * out->place + ((uint64_t)out->count << 32));
    assert(len == 0 || memcmp(copy, bytes, len) == 0);
    free(copy);
}

static void check_unused(const struct second_text *answer)
{
    static const struct second_media none;

    assert(answer->count <= 8 && answer->refusal <= 9);
    assert(answer->refusal == 0 || answer->count == 0);
    for (uint32_t i = answer->count; i < 8; i++)
        assert(memcmp(&answer->media[i], &none, sizeof none) == 0);
}

static void expect(const void *bytes, size_t len, uint32_t refusal, uint32_t place, uint32_t count)
{
    struct second_text answer;

    memset(&answer, 0xa5, sizeof answer);
    read_copy(bytes, len, &answer);
    if (answer.refusal != refusal || answer.place != place || answer.count != count)
        fprintf(stderr, "refused %u %u, count %u: %.*s\n", (unsigned)answer.refusal, (unsigned)answer.place,
            (unsigned)answer.count, (int)len, (const char *)bytes);
    assert(answer.refusal == refusal && answer.place == place && answer.count == count);
    check_unused(&answer);
    tests++;
}

static void run(const struct trial *trials, size_t count)
{
    for (size_t i = 0; i < count; i++)
        expect(trials[i].bytes, trials[i].len, trials[i].refusal, trials[i].place, trials[i].count);
}

#define RUN(trials) run(trials, sizeof(trials) / sizeof((trials)[0]))

/* v=0, then a line of that many bytes which begins with start. */
static void expect_line(const char *start, size_t bytes, const char *ending, uint32_t refusal, uint32_t count)
{
    char text[400];
    size_t len = (size_t)sprintf(text, V "%s", start);

    while (len < 4 + bytes)
        text[len++] = 'x';
    len += (size_t)sprintf(text + len, "%s", ending);
    expect(text, len, refusal, refusal ? 2 : 0, count);
}

static void test_line_lengths(void)
{
    for (int cr = 0; cr < 2; cr++) {
        const char *ending = cr ? "\r\n" : "\n";
        expect_line("s=", 255, ending, 0, 0);
        expect_line("s=", 256, ending, 0, 0);
        expect_line("s=", 257, ending, 2, 0);
        expect_line("m=audio 0 udp ", 256, ending, 0, 1);
        expect_line("m=audio 0 udp ", 257, ending, 2, 0);
        expect_line("m=audio 0 tcp ", 256, ending, 4, 0);
        expect_line("c=", 256, ending, 6, 0);
        expect_line("c=", 257, ending, 2, 0);
    }
    expect_line("s=", 256, "", 2, 0);
    expect_line("s=", 257, "", 2, 0);
}

/* Texts of good lines, of that many bytes in all. */
static void expect_length(size_t bytes, uint32_t refusal)
{
    static char text[5000];
    size_t len = (size_t)sprintf(text, V);

    while (bytes - len >= 200)
        len += (size_t)sprintf(text + len, "s=%0*d\n", 97, 0);
    len += (size_t)sprintf(text + len, "s=%0*d\n", (int)(bytes - len - 3), 0);
    assert(len == bytes);
    expect(text, len, refusal, 0, 0);
}

static void test_text_lengths(void)
{
    static uint8_t zeros[5000];

    expect_length(4095, 0);
    expect_length(4096, 0);
    expect_length(4097, 1);
    expect(zeros, 4096, 2, 1, 0);
    expect(zeros, 4097, 1, 0, 0);
    expect(zeros, 5000, 1, 0, 0);

    struct second_text answer;
    second_read_text(NULL, 0, &answer);
    assert(answer.refusal == 2 && answer.place == 1 && answer.count == 0);
    assert(second_text(NULL, 0) == 2 + 256);
    tests++;
}

static void test_fields(void)
{
    static const char text[] = V "c=IN IP4 10.0.0.255\r\nb=AS:9\na=inactive\n"
        "m=audio 40000 RTP/AVP 0 8\r\nb=AS:64\nb=RR:4294967295\na=sendonly\r\n"
        "m=video 00000 udp x\nc=IN IP4 001.2.3.4\nb=RS:0\n"
        "m=application 1 udp x\nb=TIAS:64001\r\na=recvonly\n";
    struct second_text answer;

    read_copy(text, sizeof text - 1, &answer);
    assert(answer.refusal == 0 && answer.place == 0 && answer.count == 3);
    const struct second_media *m = answer.media;
    assert(m[0].kind == 1 && m[0].transport == 1 && m[0].direction == 2 && m[0].port == 40000);
    assert(m[0].has_address == 1 && m[0].address == 0x0a0000ff);
    assert(m[0].has_requested == 1 && m[0].requested == 64000 && m[0].has_rs == 0 && m[0].rs == 0);
    assert(m[0].has_rr == 1 && m[0].rr == 4294967295u);
    assert(memcmp(text + m[0].m_start, "m=audio 40000 RTP/AVP 0 8\r", 26) == 0 && m[0].m_end - m[0].m_start == 25);
    assert(memcmp(text + m[0].d_start, "a=sendonly\r", 11) == 0 && m[0].d_end - m[0].d_start == 10);
    assert(m[1].kind == 2 && m[1].transport == 2 && m[1].direction == 4 && m[1].port == 0);
    assert(m[1].has_address == 1 && m[1].address == 0x01020304);
    assert(m[1].has_requested == 0 && m[1].requested == 0 && m[1].has_rs == 1 && m[1].rs == 0 && m[1].has_rr == 0);
    assert(memcmp(text + m[1].d_start, "a=inactive\nm", 12) == 0 && m[1].d_end - m[1].d_start == 10);
    assert(m[2].kind == 3 && m[2].direction == 3 && m[2].port == 1 && m[2].address == 0x0a0000ff);
    assert(m[2].has_requested == 1 && m[2].requested == 64001 && m[2].has_rs == 0 && m[2].has_rr == 0);
    assert(m[2].d_end == sizeof text - 2 && m[2].d_start == sizeof text - 12);
    check_unused(&answer);
    tests++;
}

static void test_kinds(void)
{
    static const struct { const char *name; uint8_t kind; } kinds[] = { { "audio", 1 }, { "video", 2 },
        { "application", 3 }, { "data", 4 }, { "control", 5 }, { "other", 6 }, { "Audio", 6 }, { "audi", 6 },
        { "audios", 6 }, { "videoo", 6 }, { "applications", 6 }, { "dat", 6 }, { "controls", 6 }, { "a", 6 },
        { "message", 6 }, { "\xff", 6 }, { "data\t", 6 } };

    for (size_t i = 0; i < sizeof kinds / sizeof kinds[0]; i++) {
        char text[64];
        struct second_text answer;
        size_t len = (size_t)sprintf(text, V "m=%s 0 udp 0\n", kinds[i].name);
        read_copy(text, len, &answer);
        assert(answer.refusal == 0 && answer.count == 1 && answer.media[0].kind == kinds[i].kind);
        assert(answer.media[0].has_address == 0 && answer.media[0].address == 0);
        tests++;
    }
}

/* Every refusal number occurs, and the spots of good texts point at their lines. */
static void test_generated(void)
{
    static uint8_t text[SECOND_GENERATED_BYTES];
    unsigned seen[10] = { 0 };
    uint64_t state = 1;

    for (int i = 0; i < 20000; i++) {
        struct second_text answer;
        size_t len = second_generate_text(&state, text, sizeof text);
        read_copy(text, len, &answer);
        check_unused(&answer);
        seen[answer.refusal]++;
        for (uint32_t j = 0; j < answer.count; j++) {
            const struct second_media *media = &answer.media[j];
            assert(memcmp(text + media->m_start, "m=", 2) == 0 && media->m_end < len);
            assert(media->d_end < answer.media[0].m_start || media->d_start > media->m_end);
            assert(media->d_end == 0 || media->d_end == media->d_start + 10);
            assert(media->d_end == 0 || memcmp(text + media->d_start, "a=", 2) == 0);
            assert(media->port == 0 || media->has_address);
        }
    }
    printf("generated:");
    for (unsigned number = 0; number < 10; number++) {
        printf(" %u", seen[number]);
        assert(seen[number] >= 50);
    }
    printf("\n");
    assert(seen[0] >= 6000 && seen[0] <= 10000);
    tests++;
}

/* A small room is kept to, and the same state gives the same text. */
static void test_generator(void)
{
    for (size_t room = 0; room < 300; room++) {
        uint64_t state = room, again = room;
        uint8_t *text = malloc(room), other[SECOND_GENERATED_BYTES];
        size_t len = second_generate_text(&state, text, room);
        assert(len <= room);
        assert(second_generate_text(&again, other, room) == len && again == state);
        assert(len == 0 || memcmp(text, other, len) == 0);
        free(text);
    }
    tests++;
}

int main(void)
{
    RUN(line_forms);
    RUN(media_lines);
    RUN(address_lines);
    RUN(section_lines);
    test_line_lengths();
    test_text_lengths();
    test_fields();
    test_kinds();
    test_generator();
    test_generated();
    printf("second: %u tests passed\n", tests);
    return 0;
}
