#include "known.h"

#define IP(a, b, c, d) (((uint32_t)(a) << 24) + ((b) << 16) + ((c) << 8) + (d))

const char known_offer[] =
    "v=0\n"
    "m=control 40000 RTP/AVP 0\nc=IN IP4 192.0.2.11\nb=AS:64\nb=RS:700\nb=RR:900\na=sendonly\n"
    "m=audio 40002 RTP/AVP 0\nc=IN IP4 192.0.2.12\nb=TIAS:80001\na=recvonly\n"
    "m=application 65535 udp x\nc=IN IP4 192.0.2.13\nb=RS:750\n"
    "m=video 40006 RTP/AVP 0\nc=IN IP4 192.0.2.14\na=inactive\n"
    "m=data 0 udp x\n";

const char known_answer[] =
    "v=0\n"
    "c=IN IP4 192.0.2.9\n"
    "m=control 50000 RTP/AVP 0\nb=AS:32\nb=RS:800\nb=RR:2400\na=recvonly\n"
    "m=audio 50002 RTP/AVP 0\nb=RS:6000\na=sendonly\n"
    "m=application 50004 udp x\n"
    "m=video 50006 RTP/AVP 0\nc=IN IP4 192.0.2.19\n"
    "m=data 0 udp x\n";

const char known_statement[] =
    "components 5\n"
    "1 control 0 6 32000 0 3200 3200\n"
    "2 audio 1 2 0 80001 5003 6000\n"
    "3 application 2 2 100001 90002 0 0\n"
    "4 video 3 2 100001 90002 5003 4004\n"
    "5 data 4 0 0 0 0 0\n";

const char *const known_lines[KNOWN_COMPONENTS][2] = {
    { "m=control 40000 RTP/AVP 0", "a=sendonly" },
    { "m=audio 40002 RTP/AVP 0", "a=recvonly" },
    { "m=application 65535 udp x", 0 },
    { "m=video 40006 RTP/AVP 0", "a=inactive" },
    { "m=data 0 udp x", 0 },
};

/* The pool is just filled: up 35,200 + 5,003 + 100,001 + 105,004, down 3,200 + 86,001 + 90,002 + 94,006. */
const struct frumxadda_settings known_settings = {
    .media = { .up = 100001, .down = 90002 },
    .rtcp = { .up = 5003, .down = 4004 },
    .pool = { .up = 245208, .down = 273209 },
};

const struct frumxadda_descriptions known_said = {
    .count = KNOWN_COMPONENTS,
    .media = {
        { .kind = 5, .transport = 1, .direction = 2, .port = 40000, .known = 1, .address = IP(192, 0, 2, 11),
            .requestedgiven = 1, .requested = 64000, .rsgiven = 1, .rs = 700, .rrgiven = 1, .rr = 900 },
        { .kind = 1, .transport = 1, .direction = 3, .port = 40002, .known = 1, .address = IP(192, 0, 2, 12),
            .requestedgiven = 1, .requested = 80001 },
        { .kind = 3, .transport = 2, .direction = 1, .port = 65535, .known = 1, .address = IP(192, 0, 2, 13),
            .rsgiven = 1, .rs = 750 },
        { .kind = 2, .transport = 1, .direction = 4, .port = 40006, .known = 1, .address = IP(192, 0, 2, 14) },
        { .kind = 4, .transport = 2, .direction = 1, .port = 0 },
    },
};

/* Up goes where the answer says, down where the offer says, described or not; the first two have media one way, and RTCP both ways. */
const struct frumxadda_held known_held = {
    .completed = 1,
    .kept = 2,
    .count = KNOWN_COMPONENTS,
    .components = {
        { .kind = 5, .transport = 1, .status = 0, .class_number = 6,
            .up = { .rtcp = 3200, .address = IP(192, 0, 2, 9), .media = 32000, .port = 50000, .described = 1 },
            .down = { .rtcp = 3200, .address = IP(192, 0, 2, 11), .media = 0, .port = 40000, .described = 0 } },
        { .kind = 1, .transport = 1, .status = 1, .class_number = 2,
            .up = { .rtcp = 5003, .address = IP(192, 0, 2, 9), .media = 0, .port = 50002, .described = 0 },
            .down = { .rtcp = 6000, .address = IP(192, 0, 2, 12), .media = 80001, .port = 40002, .described = 1 } },
        { .kind = 3, .transport = 2, .status = 2, .class_number = 2,
            .up = { .rtcp = 0, .address = IP(192, 0, 2, 9), .media = 100001, .port = 50004, .described = 1 },
            .down = { .rtcp = 0, .address = IP(192, 0, 2, 13), .media = 90002, .port = 65535, .described = 1 } },
        { .kind = 2, .transport = 1, .status = 3, .class_number = 2,
            .up = { .rtcp = 5003, .address = IP(192, 0, 2, 19), .media = 100001, .port = 50006, .described = 1 },
            .down = { .rtcp = 4004, .address = IP(192, 0, 2, 14), .media = 90002, .port = 40006, .described = 1 } },
        { .kind = 4, .transport = 2, .status = 4, .class_number = 0 },
    },
};

const struct frumxadda_before known_before = {
    .kept = 2,
    .components = {
        { .kind = 5, .live = 1, .up = 1, .down = 0 }, { .kind = 1, .live = 1, .up = 0, .down = 1 },
        { .kind = 3, .live = 1, .up = 1, .down = 1 }, { .kind = 2, .live = 1, .up = 1, .down = 1 },
        { .kind = 4, .live = 0, .up = 0, .down = 0 },
    },
};

const struct frumxadda_destinations known_media[KNOWN_COMPONENTS] = {
    { .up = { IP(192, 0, 2, 9), 50000 } },
    { .down = { IP(192, 0, 2, 12), 40002 } },
    { .up = { IP(192, 0, 2, 9), 50004 }, .down = { IP(192, 0, 2, 13), 65535 } },
    { .up = { IP(192, 0, 2, 19), 50006 }, .down = { IP(192, 0, 2, 14), 40006 } },
    { .up = { 0, 0 } },
};

const struct frumxadda_destinations known_rtcp[KNOWN_COMPONENTS] = {
    { .up = { IP(192, 0, 2, 9), 50001 }, .down = { IP(192, 0, 2, 11), 40001 } },
    { .up = { IP(192, 0, 2, 9), 50003 }, .down = { IP(192, 0, 2, 12), 40003 } },
    { .up = { 0, 0 } },
    { .up = { IP(192, 0, 2, 19), 50007 }, .down = { IP(192, 0, 2, 14), 40007 } },
    { .up = { 0, 0 } },
};
