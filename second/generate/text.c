#include "text.h"

#include "random.h"

#include <stdbool.h>
#include <string.h>

/* What a text is made for: 0 good, 1 to 9 that refusal, or one of these. */
enum { MIXED = 10, DAMAGED, NOISE };

enum { TEXT_BYTES = 4096, LINE_BYTES = 256 };

/* Optional lines stop here, so that a text grows past 4,096 bytes on purpose only. */
enum { OPTIONAL_BYTES = 1800 };

/* The lines that a section has at most once. */
enum { HAS_ADDRESS = 1, HAS_AS = 2, HAS_TIAS = 4, HAS_RS = 8, HAS_RR = 16, HAS_DIRECTION = 32 };

struct maker {
    uint64_t *state;
    uint8_t *out;
    size_t len, room;
    unsigned aim;
    unsigned endings; /* 0 LF, 1 CR LF, 2 mixed */
    unsigned has;     /* in the section being made */
    bool session_address;
};

#define PICK(maker, list) ((list)[below(maker, sizeof(list) / sizeof((list)[0]))])

static const char *const bad_first_lines[] = { "v=1", "v=00", "v=0 ", " v=0", "V=0", "v=", "v0", "v", "o=0",
    "v=0\t", "v =0", "v= 0", "m=audio 0 RTP/AVP 0", "c=IN IP4 1.2.3.4", "=0", "" };
static const char *const bad_endings[] = { "\r\r\n", "\r", "", "\n\n", "\n\r\n", "\r\n\r\n", "\r \n", "\n=\n",
    "\na\n", "\nA=x\n", "\nZ=\n", "\n1=x\n", "\n a=x\n", "\na =x\n", "\n`=x\n", "\n{=x\n", "\nm\n", "\nm audio\n",
    "\nC=IN IP4 1.2.3.4\n", "\n\r", "\n\xe1=x\n", "\n=a=x\n", "\na=x\r=y\n" };
static const char *const passed_lines[] = { "o=- 1 1 IN IP4 192.0.2.1", "s=-", "s=", "i=call", "u=http://example.org/",
    "e=a@example.org", "p=+44", "t=0 0", "r=1 2 3", "z=0 0", "k=clear:1", "v=0", "v=1", "v=", "x=\x01\x7f\x80\xff",
    "y=\t tab", "z= ", "l==", "d=m=audio 1 udp 0", "n=a=sendonly" };
static const char *const kinds[] = { "audio", "video", "application", "data", "control", "audio", "video", "message",
    "Audio", "image", "audi", "audio2", "videos", "applicatio", "applications", "dat", "datas", "contro", "controls",
    "DATA", "audio\t", "\xff", "m=audio", "a" };
static const char *const ports[] = { "0", "00000", "0", "1", "01", "00080", "9", "10", "999", "40000", "49170",
    "65533", "65534", "65530", "60000", "00001" };
static const char *const bad_ports[] = { "65536", "65540", "65600", "66000", "70000", "99999", "100000", "000000",
    "040000", "40000/2", "-1", "+1", "", "40 000", "4000a", "0x10", "1.0", " 40000", "40000 ", "\t1", "65535" };
static const char *const bad_transports[] = { "RTP/SAVP", "UDP", "rtp/avp", "TCP", "RTP/AVPF", "RTP/AV", "RTP",
    "ud", "udpl", "udp\t", "\tudp", "RTP/AVP\t", "RTP/avp", "RTP\\AVP", "x", "Udp", "udp/RTP" };
static const char *const formats[] = { "0", "0 8 101", "96 97", "wb", "-", "\t", "0\t8", "t38", "*", "\x80 \xff", "a=b" };
static const char *const bad_formats[] = { "", " ", " 0", "0 ", "0  8", "0 8 ", "0   8", "  " };
static const char *const addresses[] = { "192.0.2.1", "0.0.0.0", "255.255.255.255", "001.002.003.004", "10.0.0.255",
    "224.2.1.1", "1.2.3.4", "000.00.0.255", "099.100.199.249", "198.51.100.250", "203.0.113.9" };
static const char *const bad_addresses[] = { "IN IP4 256.0.0.1", "IN IP4 1.256.3.4", "IN IP4 1.2.260.4",
    "IN IP4 1.2.3.256", "IN IP4 1.2.3.300", "IN IP4 1.2.3.999", "IN IP4 1.2.3", "IN IP4 1.2.3.4.5",
    "IN IP4 1.2.3.4/127", "IN IP4 1.2.3.4 ", "IN IP4 1..3.4", "IN IP4 .1.2.3", "IN IP4 1.2.3.", "IN IP4 1.2.3.4.",
    "IN IP4 0001.2.3.4", "IN IP4 1.2.3.0004", "IN IP4 1.2.0000.4", "IN IP4 1.2.3.a", "IN IP4 1,2,3,4",
    "IN IP4 1.2.3.4\t", "IN IP4 -1.2.3.4", "IN IP4  1.2.3.4", "IN IP4 ", "IN IP4", "IN", "", "IN IP6 ::1",
    "IN IP6 1.2.3.4", "in IP4 1.2.3.4", "IN ip4 1.2.3.4", " IN IP4 1.2.3.4", "IN  IP4 1.2.3.4", "IN IP4\t1.2.3.4",
    "IN IP4 1.2.3.4 a", "IN IP4 host", "IN IP4 1.2.3.4/", "IN IP5 1.2.3.4", "ATM IP4 1.2.3.4", "IN IP4 1.2.3:4" };
static const char *const as_rates[] = { "0", "1", "64", "4294967", "4294966", "0004294967", "0000000000", "256",
    "300000", "0000000064" };
static const char *const bad_as_rates[] = { "4294968", "4294970", "0004294968", "4294967295", "42949670" };
static const char *const bit_rates[] = { "0", "800", "2400", "4294967295", "4294967294", "4294967", "4294968",
    "0000000000", "0000000800", "1000000000", "19", "20", "21", "64001", "0000064001", "63999", "4294967276" };
static const char *const bad_bit_rates[] = { "4294967296", "4294967297", "4294967300", "5000000000", "9999999999",
    "8589934591" };
static const char *const bad_rates[] = { "", " ", " 64", "64 ", "-1", "+1", "6 4", "6a", "64k", "0x40", "6.4", ":1",
    "00000000000", "00000000064", "04294967295", "12345678901", "\t1", "/", "6:", "18446744073709551617" };
static const char *const passed_rates[] = { "CT:128", "AS", "as:64", "X-AS:1", "", "RS", "RR 1", " AS:64", "A", "ASS:1",
    "AS;64", "rs:1", "Rs:1", "SA:1", "SR:x", "SS:", "AR:1", "AS 64", "RRR:1", ":1", "AS=64", "TIAS", "TIA:64000",
    "tias:64001", "TIAS :64001", "XTIAS:1", "X-TIAS:x", "TIASS:1", "TIAS;1", "TIAS=64001", "TIAS64001", " TIAS:1", "T",
    "TI", "TIRS:1", "TAS:1", "IAS:1", "Tias:x", "TIAs:", "TIAS\t:1" };
/* In the session section these are passed over too. */
static const char *const session_rates[] = { "AS:x", "AS:64", "RS:99999999999", "TIAS:64001", "TIAS:64001", "TIAS:",
    "TIAS:x", "TIAS:4294967296", "TIAS:00000000001" };
static const char *const directions[] = { "sendrecv", "sendonly", "recvonly", "inactive" };
static const char *const passed_attributes[] = { "rtpmap:0 PCMU/8000", "ptime:20", "fmtp:96 mode=1", "sendonly ",
    "Sendonly", "sendonly:", "inactive2", " recvonly", "sendrec", "SENDRECV", "inactiv", "", "sendrecv\t", "active1x",
    "sendrecx", "recvonlx", "xnactive", "recvonly:1", "inactive ", "Inactive", "a=inactive" };

static unsigned below(struct maker *maker, unsigned bound)
{
    return (unsigned)(second_draw(maker->state) % bound);
}

static bool one_in(struct maker *maker, unsigned bound)
{
    return below(maker, bound) == 0;
}

/* Whether to make a fault of that refusal number here. */
static bool faulty(struct maker *maker, unsigned refusal)
{
    if (maker->aim == MIXED)
        return one_in(maker, refusal == 2 ? 40 : 10);
    return maker->aim == refusal && one_in(maker, refusal == 2 ? 6 : 2);
}

static void put_byte(struct maker *maker, uint8_t byte)
{
    if (maker->len < maker->room)
        maker->out[maker->len++] = byte;
}

static void put(struct maker *maker, const char *word)
{
    for (; *word; word++)
        put_byte(maker, (uint8_t)*word);
}

static void put_number(struct maker *maker, unsigned number)
{
    if (number >= 10)
        put_number(maker, number / 10);
    put_byte(maker, (uint8_t)('0' + number % 10));
}

static void fill(struct maker *maker, size_t end)
{
    while (maker->len < end && maker->len < maker->room)
        put_byte(maker, 'x');
}

static void end_line(struct maker *maker)
{
    if (faulty(maker, 2)) {
        if (one_in(maker, 8))
            put_byte(maker, '\0');
        put(maker, PICK(maker, bad_endings));
    } else if (maker->endings == 1 || (maker->endings == 2 && one_in(maker, 2))) {
        put(maker, "\r\n");
    } else {
        put(maker, "\n");
    }
}

/* Fills the line from start up to the longest good length, one less, or, for a fault, one more. */
static void stretch(struct maker *maker, size_t start)
{
    size_t bytes = LINE_BYTES - below(maker, 2);

    if (faulty(maker, 2))
        bytes = LINE_BYTES + 1 + (one_in(maker, 4) ? below(maker, 50) : 0);
    fill(maker, start + bytes);
}

static void put_line(struct maker *maker, const char *letter, const char *rest)
{
    size_t start = maker->len;

    put(maker, letter);
    put(maker, rest);
    if (maker->aim != 9 && one_in(maker, 60) && *letter != 'c' && maker->len < OPTIONAL_BYTES)
        stretch(maker, start);
    end_line(maker);
}

static void put_address(struct maker *maker)
{
    maker->has |= HAS_ADDRESS;
    put(maker, "c=");
    if (faulty(maker, 6)) {
        put(maker, PICK(maker, bad_addresses));
    } else if (one_in(maker, 2)) {
        put(maker, "IN IP4 ");
        put(maker, PICK(maker, addresses));
    } else {
        put(maker, "IN IP4 ");
        for (int i = 0; i < 4; i++) {
            put_number(maker, below(maker, 256));
            put(maker, i < 3 ? "." : "");
        }
    }
    end_line(maker);
}

static void put_bad_value(struct maker *maker, bool kilobits)
{
    if (one_in(maker, 2))
        put(maker, PICK(maker, bad_rates));
    else
        put(maker, kilobits ? PICK(maker, bad_as_rates) : PICK(maker, bad_bit_rates));
}

static void put_value(struct maker *maker, bool kilobits)
{
    uint32_t any = (uint32_t)second_draw(maker->state);

    if (one_in(maker, 2))
        put_number(maker, (kilobits ? any % 4294968 : any) >> below(maker, 24));
    else
        put(maker, kilobits ? PICK(maker, as_rates) : PICK(maker, bit_rates));
}

/* Rarely where the section has that modifier already. */
static void put_rate(struct maker *maker, unsigned has, const char *modifier)
{
    if (maker->has & has && !faulty(maker, 7))
        return;
    maker->has |= has;
    put(maker, modifier);
    if (faulty(maker, 7))
        put_bad_value(maker, has == HAS_AS);
    else
        put_value(maker, has == HAS_AS);
    end_line(maker);
}

/* AS, TIAS, or both in either order. */
static void put_requested(struct maker *maker)
{
    unsigned order = below(maker, 6);

    if (order < 3)
        put_rate(maker, HAS_AS, "b=AS:");
    if (order > 1)
        put_rate(maker, HAS_TIAS, "b=TIAS:");
    if (order > 4)
        put_rate(maker, HAS_AS, "b=AS:");
}

static void put_any_rate(struct maker *maker)
{
    if (one_in(maker, 2))
        put_requested(maker);
    else if (one_in(maker, 2))
        put_rate(maker, HAS_RS, "b=RS:");
    else
        put_rate(maker, HAS_RR, "b=RR:");
}

static void put_two_tias(struct maker *maker)
{
    for (int i = 0; i < 2; i++) {
        put(maker, one_in(maker, 2) ? "b=TIAS:64001" : "b=TIAS:0");
        end_line(maker);
    }
}

static void put_direction(struct maker *maker)
{
    if (maker->has & HAS_DIRECTION && !faulty(maker, 8))
        return;
    maker->has |= HAS_DIRECTION;
    put(maker, "a=");
    put(maker, PICK(maker, directions));
    end_line(maker);
}

static void put_two_directions(struct maker *maker)
{
    put_direction(maker);
    put_direction(maker);
}

/* A line of the session section; its rates are not read. */
static void put_session_line(struct maker *maker)
{
    switch (below(maker, 6)) {
    case 0:
    case 1:
        put_line(maker, "b=", one_in(maker, 4) ? PICK(maker, passed_rates) : PICK(maker, session_rates));
        break;
    case 2:
        put_direction(maker);
        break;
    case 3:
        put_line(maker, "a=", PICK(maker, passed_attributes));
        break;
    default:
        put_line(maker, "", PICK(maker, passed_lines));
    }
}

static void put_session(struct maker *maker)
{
    unsigned before = below(maker, 4), after = below(maker, 4);

    maker->has = 0;
    put(maker, faulty(maker, 2) ? PICK(maker, bad_first_lines) : "v=0");
    end_line(maker);
    while (before-- > 0)
        put_session_line(maker);
    if (maker->aim != 9 && !one_in(maker, 3))
        put_address(maker);
    maker->session_address = maker->has & HAS_ADDRESS;
    if (maker->session_address && faulty(maker, 6))
        put_address(maker);
    if (maker->aim == 8 && one_in(maker, 3))
        put_two_directions(maker);
    while (after-- > 0)
        put_session_line(maker);
}

/* Returns whether the port, if good, is live. */
static bool put_port(struct maker *maker, bool rtp)
{
    if (faulty(maker, 3)) {
        put(maker, PICK(maker, bad_ports));
        return true;
    }
    if (one_in(maker, 3)) {
        put_number(maker, 1 + below(maker, 65534));
        return true;
    }
    const char *port = !rtp && one_in(maker, 4) ? "65535" : PICK(maker, ports);
    put(maker, port);
    return port[strspn(port, "0")] != '\0';
}

/* Returns whether the port, if good, is live. */
static bool put_media_line(struct maker *maker)
{
    size_t start = maker->len;
    bool rtp = !one_in(maker, 3);
    unsigned spaces = faulty(maker, 3) && one_in(maker, 3) ? 1 + below(maker, 3) : 0;

    put(maker, "m=");
    put(maker, faulty(maker, 3) && one_in(maker, 4) ? "" : PICK(maker, kinds));
    put(maker, spaces == 1 ? "  " : " ");
    bool live = put_port(maker, rtp);
    put(maker, spaces == 2 ? "  " : " ");
    put(maker, faulty(maker, 4) ? PICK(maker, bad_transports) : rtp ? "RTP/AVP" : "udp");
    put(maker, spaces == 3 ? "" : " ");
    put(maker, faulty(maker, 3) ? PICK(maker, bad_formats) : PICK(maker, formats));
    if (one_in(maker, 40) && maker->len < OPTIONAL_BYTES)
        stretch(maker, start);
    end_line(maker);
    return live;
}

static void put_media_section_line(struct maker *maker)
{
    switch (below(maker, 7)) {
    case 0:
        if (!(maker->has & HAS_ADDRESS) || faulty(maker, 6))
            put_address(maker);
        break;
    case 1:
    case 2:
        put_any_rate(maker);
        break;
    case 3:
        put_line(maker, "b=", PICK(maker, passed_rates));
        break;
    case 4:
        put_direction(maker);
        break;
    case 5:
        put_line(maker, "a=", PICK(maker, passed_attributes));
        break;
    default:
        put_line(maker, "", PICK(maker, passed_lines));
    }
}

static void put_media_section(struct maker *maker)
{
    bool live = put_media_line(maker);
    unsigned lines = below(maker, 7);

    maker->has = 0;
    while (lines-- > 0 && maker->len < OPTIONAL_BYTES)
        put_media_section_line(maker);
    if (maker->aim == 7 && one_in(maker, 2))
        put_any_rate(maker);
    if (maker->aim == 7 && one_in(maker, 4))
        put_two_tias(maker);
    if (maker->aim == 8 && one_in(maker, 2))
        put_two_directions(maker);
    if (live && !maker->session_address && !(maker->has & HAS_ADDRESS) && !faulty(maker, 9))
        put_address(maker);
}

/* Lines that are passed over, up to exactly that many bytes in all. */
static void pad(struct maker *maker, size_t bytes)
{
    if (bytes > maker->room)
        bytes = maker->room;
    while (maker->len + 4 <= bytes) {
        size_t rest = bytes - maker->len, line = rest;
        if (line > LINE_BYTES + 2)
            line = rest - (LINE_BYTES + 2) < 4 ? LINE_BYTES / 2 : LINE_BYTES + 2;
        size_t end = maker->len + line;
        bool cr = one_in(maker, 2) || line == LINE_BYTES + 2;
        put(maker, "i=");
        fill(maker, end - 1 - cr);
        put(maker, cr ? "\r\n" : "\n");
    }
}

static void put_text(struct maker *maker)
{
    unsigned media = one_in(maker, 5) ? below(maker, 9) : one_in(maker, 16) ? 0 : 1 + below(maker, 3);

    if (maker->aim == 5 || (maker->aim == MIXED && one_in(maker, 4)))
        media = 9;
    maker->endings = below(maker, 3);
    put_session(maker);
    for (unsigned i = 1; i <= media; i++) {
        if (i == 9 && one_in(maker, 2))
            maker->aim = MIXED;
        put_media_section(maker);
    }
    if (maker->aim == 1)
        pad(maker, TEXT_BYTES + 1 + (one_in(maker, 2) ? 0 : below(maker, 104)));
    else if (one_in(maker, 12))
        pad(maker, TEXT_BYTES - below(maker, 3));
    if (maker->aim == 2 && one_in(maker, 4) && maker->len > 0)
        maker->len--;
}

static uint8_t telling_byte(struct maker *maker)
{
    static const uint8_t bytes[] = "\0\r\n =:.019/+-\t\xff\x80" "amcbvASRTI";

    return bytes[below(maker, sizeof bytes - 1)];
}

static void insert_byte(struct maker *maker, size_t at, uint8_t byte)
{
    if (maker->len == maker->room)
        return;
    memmove(maker->out + at + 1, maker->out + at, maker->len - at);
    maker->out[at] = byte;
    maker->len++;
}

static void remove_bytes(struct maker *maker, size_t from, size_t to)
{
    memmove(maker->out + from, maker->out + to, maker->len - to);
    maker->len -= to - from;
}

static size_t line_start(const struct maker *maker, size_t at)
{
    while (at > 0 && maker->out[at - 1] != '\n')
        at--;
    return at;
}

static size_t next_line(const struct maker *maker, size_t at)
{
    while (at < maker->len && maker->out[at] != '\n')
        at++;
    return at < maker->len ? at + 1 : at;
}

static void double_line(struct maker *maker, size_t at)
{
    size_t from = line_start(maker, at), bytes = next_line(maker, at) - from;

    if (maker->room - maker->len < bytes)
        return;
    memmove(maker->out + from + bytes, maker->out + from, maker->len - from);
    maker->len += bytes;
}

static void damage(struct maker *maker)
{
    if (maker->len == 0)
        return;
    size_t at = below(maker, (unsigned)maker->len);
    switch (below(maker, 8)) {
    case 0:
        maker->out[at] ^= (uint8_t)(1u << below(maker, 8));
        break;
    case 1:
        maker->out[at] = telling_byte(maker);
        break;
    case 2:
        insert_byte(maker, at, telling_byte(maker));
        break;
    case 3:
        remove_bytes(maker, at, at + 1);
        break;
    case 4:
        remove_bytes(maker, line_start(maker, at), next_line(maker, at));
        break;
    case 5:
        double_line(maker, at);
        break;
    case 6:
        insert_byte(maker, at, maker->out[at]);
        break;
    default:
        if (one_in(maker, 4))
            maker->len = at;
    }
}

static void put_noise(struct maker *maker)
{
    static const char *const starts[] = { "", "", "v", "v=", "v=0", "v=0\n", "v=0\r", "v=0\r\n", "v=0\n\n", "\n",
        "v=0\nm=", "v=0\nc=", "v=0\r\nm=audio 0 RTP/AVP 0\r\na=sendonly", "v=0\nm=data 0 udp 0\nb=AS:",
        "v=0\nm=data 0 udp 0\nb=TIAS:", "v=0\nm=x 0 udp 0\nb=AS:1\nb=TIAS:1\nb=TIAS:",
        "v=0\na=inactive\na=inactive", "v=0\r\na=sendonly\r\na=" };
    unsigned bytes = one_in(maker, 3) ? 0 : below(maker, 40);

    put(maker, PICK(maker, starts));
    while (bytes-- > 0)
        put_byte(maker, one_in(maker, 3) ? (uint8_t)second_draw(maker->state) : telling_byte(maker));
}

/* Out of 100 texts, how many are made for each aim. */
static unsigned draw_aim(struct maker *maker)
{
    static const unsigned char shares[] = { 28, 4, 7, 8, 7, 4, 8, 9, 7, 7, 4, 5, 2 };
    unsigned at = below(maker, 100), aim = 0;

    while (aim < NOISE && at >= shares[aim])
        at -= shares[aim++];
    return aim;
}

size_t second_generate_text(uint64_t *state, uint8_t *out, size_t room)
{
    struct maker maker = { .state = state, .out = out, .room = room };

    if (maker.room > SECOND_GENERATED_BYTES)
        maker.room = SECOND_GENERATED_BYTES;
    maker.aim = draw_aim(&maker);
    if (maker.aim == NOISE) {
        put_noise(&maker);
        return maker.len;
    }
    put_text(&maker);
    if (maker.aim == DAMAGED)
        for (unsigned times = 1 + below(&maker, 3); times > 0; times--)
            damage(&maker);
    return maker.len;
}
