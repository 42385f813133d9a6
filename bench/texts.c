#include "../second/server/text.h"
#include "bench.h"
#include "measure.h"

#include <frumxadda.h>
#include <stdio.h>
#include <string.h>

/* Timed: reading a text into all that it says. */

/* Bytes read in one round, so that a longer text is read fewer times. */
enum { TEXTS = 3, ROOM = 4096, ROUND_BYTES = 30000 };

struct sample {
    const char *name;
    size_t len;
    uint8_t bytes[ROOM];
};

static const char two_lines[] = "v=0\r\nm=audio 0 RTP/AVP 0\r\n";

static const char softphone[] =
    "v=0\r\n"
    "o=alice.example 2890844526 2890844526 IN IP4 192.0.2.17\r\n"
    "s=call from a softphone\r\n"
    "c=IN IP4 192.0.2.17\r\n"
    "b=CT:1200\r\n"
    "t=0 0\r\n"
    "m=audio 49170 RTP/AVP 0 8 96 97 101\r\n"
    "b=AS:80\r\n"
    "b=RS:800\r\n"
    "b=RR:2400\r\n"
    "a=rtpmap:0 PCMU/8000\r\n"
    "a=rtpmap:8 PCMA/8000\r\n"
    "a=rtpmap:96 opus/48000/2\r\n"
    "a=fmtp:96 useinbandfec=1; maxaveragebitrate=40000; stereo=0\r\n"
    "a=rtpmap:97 AMR-WB/16000\r\n"
    "a=rtpmap:101 telephone-event/8000\r\n"
    "a=fmtp:101 0-16\r\n"
    "a=ptime:20\r\n"
    "a=sendrecv\r\n"
    "m=video 51372 RTP/AVP 99\r\n"
    "b=AS:1024\r\n"
    "a=rtpmap:99 H264/90000\r\n"
    "a=fmtp:99 profile-level-id=42e01f;level-asymmetry-allowed=1;packetization-mode=1;"
    "sprop-parameter-sets=Z0LAHtkDxWhAAAADAEAAAAwDxYuS,aMuMsg==\r\n"
    "a=rtcp-fb:* ccm fir\r\n"
    "a=sendrecv\r\n";

static const char session_lines[] =
    "v=0\r\n"
    "o=bridge 3724394400 3724394405 IN IP4 198.51.100.1\r\n"
    "s=conference with eight media sections\r\n"
    "c=IN IP4 198.51.100.1\r\n"
    "t=0 0\r\n";

static const char section_lines[] =
    "m=video %d RTP/AVP 96 97 98\r\n"
    "c=IN IP4 198.51.100.%d\r\n"
    "b=AS:2048\r\n"
    "b=RS:8000\r\n"
    "b=RR:24000\r\n"
    "a=rtpmap:96 H264/90000\r\n"
    "a=fmtp:96 profile-level-id=640c1f;packetization-mode=1;max-mbps=244800;max-fs=8160\r\n"
    "a=rtpmap:97 VP8/90000\r\n"
    "a=fmtp:97 max-fr=30;max-fs=3600\r\n"
    "a=rtpmap:98 H263-1998/90000\r\n"
    "a=fmtp:98 CIF=1;QCIF=1;CUSTOM=352,240,2\r\n"
    "a=framerate:30\r\n"
    "a=label:%d\r\n"
    "a=content:main speaker and slides of the conference\r\n"
    "a=sendonly\r\n";

static void set_text(struct sample *sample, const char *name, const char *text)
{
    sample->name = name;
    sample->len = strlen(text);
    memcpy(sample->bytes, text, sample->len);
}

static void set_eight(struct sample *sample)
{
    set_text(sample, "text of 8 media", session_lines);
    for (int i = 1; i <= 8; i++)
        sample->len += (size_t)snprintf((char *)sample->bytes + sample->len, ROOM - sample->len, section_lines,
            50000 + 2 * i, i, i);
}

static uint64_t read_proved(void *of, unsigned long times)
{
    const struct sample *sample = of;
    uint64_t sum = 0;

    for (unsigned long i = 0; i < times; i++) {
        struct frumxadda_reading read = frumxadda_read(sample->bytes, sample->len);
        sum += read.refusal + read.count + read.media[7].port + read.spots[0].end;
    }
    return sum;
}

static uint64_t read_second(void *of, unsigned long times)
{
    const struct sample *sample = of;
    uint64_t sum = 0;

    for (unsigned long i = 0; i < times; i++) {
        struct second_text text;
        second_read_text(sample->bytes, sample->len, &text);
        sum += text.refusal + text.count + text.media[7].port + text.media[0].m_end;
    }
    return sum;
}

/* A refused text would be read in part only. */
static bool good(const struct sample *sample)
{
    uint64_t number = frumxadda_text(sample->bytes, sample->len);

    return (uint32_t)number == 0 && number == second_text(sample->bytes, sample->len);
}

bool bench_texts(void)
{
    static struct sample samples[TEXTS];

    set_text(&samples[0], "text of 2 lines", two_lines);
    set_text(&samples[1], "text of audio and video", softphone);
    set_eight(&samples[2]);
    for (int i = 0; i < TEXTS; i++) {
        char name[64];
        if (!good(&samples[i])) {
            printf("%s is refused\n", samples[i].name);
            return false;
        }
        snprintf(name, sizeof name, "%s, %zu bytes", samples[i].name, samples[i].len);
        print_measured(name, measure(read_proved, read_second, &samples[i], ROUND_BYTES / samples[i].len + 1));
    }
    return true;
}
