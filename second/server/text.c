#include "text.h"

#include <stdbool.h>
#include <string.h>

enum { TEXT_BYTES = 4096, LINE_BYTES = 256, MEDIA_LINES = 8 };
enum { PORT_TOP = 65535, RTP_PORT_TOP = 65534 };

#define AS_TOP 4294967u
#define RATE_TOP 4294967295u

enum refusal {
    GOOD,
    TEXT_TOO_LONG,
    LINE_FORM,
    MEDIA_FIELDS,
    TRANSPORT_UNKNOWN,
    NINTH_MEDIA,
    ADDRESS_FORM,
    RATE_VALUE,
    SECOND_DIRECTION,
    NO_ADDRESS
};

struct reader {
    const uint8_t *text;
    struct second_text *out;
    struct second_media session;     /* of the session section: its address and its direction */
    struct second_media *section;    /* the section being read, the session's before the first m= line */
    bool own_address, own_direction; /* whether that section has had its own */
    uint8_t has_as, has_tias;        /* and, a media section, these */
};

static bool is(const uint8_t *start, const uint8_t *end, const char *word, size_t len)
{
    return (size_t)(end - start) == len && memcmp(start, word, len) == 0;
}

#define IS(start, end, word) is(start, end, word, sizeof(word) - 1)

static bool begins(const uint8_t *start, const uint8_t *end, const char *word, size_t len)
{
    return (size_t)(end - start) >= len && memcmp(start, word, len) == 0;
}

#define BEGINS(start, end, word) begins(start, end, word, sizeof(word) - 1)

/* 1 to most digits and nothing else, at most top; most is at most 10. */
static bool read_number(const uint8_t *p, const uint8_t *end, ptrdiff_t most, uint32_t top, uint32_t *value)
{
    uint64_t sum = 0;

    if (p == end || end - p > most)
        return false;
    for (; p < end; p++) {
        unsigned digit = *p - (unsigned)'0';
        if (digit > 9)
            return false;
        sum = 10 * sum + digit;
    }
    *value = (uint32_t)sum;
    return sum <= top;
}

static const uint8_t *field_end(const uint8_t *p, const uint8_t *end)
{
    while (p < end && *p != ' ')
        p++;
    return p;
}

/* Each space from p on has a byte other than a space after it. */
static bool fields_good(const uint8_t *p, const uint8_t *end)
{
    for (; p < end; p++)
        if (*p == ' ' && (p + 1 == end || p[1] == ' '))
            return false;
    return true;
}

static uint8_t media_kind(const uint8_t *start, const uint8_t *end)
{
    switch (*start) {
    case 'a':
        return IS(start, end, "audio") ? 1 : IS(start, end, "application") ? 3 : 6;
    case 'v':
        return IS(start, end, "video") ? 2 : 6;
    case 'd':
        return IS(start, end, "data") ? 4 : 6;
    case 'c':
        return IS(start, end, "control") ? 5 : 6;
    default:
        return 6;
    }
}

/* The fields of an m= line, from the first byte after the = sign. */
static enum refusal read_fields(const uint8_t *p, const uint8_t *end, struct second_media *media)
{
    uint32_t port;
    const uint8_t *name_end = field_end(p, end);
    if (name_end == p || name_end == end)
        return MEDIA_FIELDS;
    const uint8_t *port_end = field_end(name_end + 1, end);
    if (port_end == end || !read_number(name_end + 1, port_end, 5, PORT_TOP, &port))
        return MEDIA_FIELDS;
    const uint8_t *transport = port_end + 1;
    const uint8_t *transport_end = field_end(transport, end);
    if (transport_end == transport || transport_end == end || !fields_good(transport_end, end))
        return MEDIA_FIELDS;

    if (IS(transport, transport_end, "RTP/AVP"))
        media->transport = 1;
    else if (IS(transport, transport_end, "udp"))
        media->transport = 2;
    else
        return TRANSPORT_UNKNOWN;
    if (media->transport == 1 && port > RTP_PORT_TOP)
        return MEDIA_FIELDS;
    media->kind = media_kind(p, name_end);
    media->port = (uint16_t)port;
    return GOOD;
}

/*
 * The session's address "serves a media section without its own" (01), and its direction "stands for a media section
 * without one" (02, request 1).
 */
static void take_session(const struct second_media *session, struct second_media *media)
{
    media->has_address = session->has_address;
    media->address = session->address;
    media->direction = session->direction;
    media->d_start = session->d_start;
    media->d_end = session->d_end;
}

static enum refusal read_media(struct reader *reader, const uint8_t *start, const uint8_t *end)
{
    struct second_text *out = reader->out;
    if (out->count == MEDIA_LINES)
        return NINTH_MEDIA;

    struct second_media *media = &out->media[out->count];
    enum refusal refusal = read_fields(start + 2, end, media);
    if (refusal != GOOD)
        return refusal;
    take_session(&reader->session, media);
    media->m_start = (uint16_t)(start - reader->text);
    media->m_end = (uint16_t)(end - reader->text);
    out->count++;
    reader->section = media;
    reader->own_address = reader->own_direction = false;
    reader->has_as = reader->has_tias = 0;
    return GOOD;
}

/* Exactly a.b.c.d, each 0 to 255 in 1 to 3 digits. */
static bool read_octets(const uint8_t *p, const uint8_t *end, uint32_t *address)
{
    uint32_t bits = 0;

    for (int i = 0; i < 4; i++) {
        uint32_t octet = 0;
        int digits = 0;
        if (i > 0 && (p == end || *p++ != '.'))
            return false;
        for (; digits < 3 && p < end && *p >= '0' && *p <= '9'; p++, digits++)
            octet = 10 * octet + (*p - (uint32_t)'0');
        if (digits == 0 || octet > 255)
            return false;
        bits = bits << 8 | octet;
    }
    *address = bits;
    return p == end;
}

static enum refusal read_address(struct reader *reader, const uint8_t *start, const uint8_t *end)
{
    if (reader->own_address || !BEGINS(start, end, "c=IN IP4 "))
        return ADDRESS_FORM;
    if (!read_octets(start + 9, end, &reader->section->address))
        return ADDRESS_FORM;
    reader->own_address = true;
    reader->section->has_address = 1;
    return GOOD;
}

/* What follows a modifier, which a section has at most once. */
static enum refusal read_rate(const uint8_t *p, const uint8_t *end, uint32_t top, uint8_t *has, uint32_t *rate)
{
    if (*has || !read_number(p, end, 10, top, rate))
        return RATE_VALUE;
    *has = 1;
    return GOOD;
}

static void request(struct second_media *media, uint32_t rate)
{
    media->has_requested = 1;
    media->requested = rate;
}

/* Kilobits are turned to bit/s here, and go no further. */
static enum refusal read_as(struct reader *reader, const uint8_t *p, const uint8_t *end)
{
    uint32_t kilobits;
    enum refusal refusal = read_rate(p, end, AS_TOP, &reader->has_as, &kilobits);

    if (refusal == GOOD)
        request(reader->section, 1000 * kilobits);
    return refusal;
}

/* "AS decides where present, else TIAS as it stands" (02, request 7), in either order. */
static enum refusal read_tias(struct reader *reader, const uint8_t *p, const uint8_t *end)
{
    uint32_t rate;
    enum refusal refusal = read_rate(p, end, RATE_TOP, &reader->has_tias, &rate);

    if (refusal == GOOD && !reader->has_as)
        request(reader->section, rate);
    return refusal;
}

/* A b= line of a media section. */
static enum refusal read_modifier(struct reader *reader, const uint8_t *start, const uint8_t *end)
{
    struct second_media *media = reader->section;

    if (BEGINS(start, end, "b=AS:"))
        return read_as(reader, start + 5, end);
    if (BEGINS(start, end, "b=TIAS:"))
        return read_tias(reader, start + 7, end);
    if (BEGINS(start, end, "b=RS:"))
        return read_rate(start + 5, end, RATE_TOP, &media->has_rs, &media->rs);
    if (BEGINS(start, end, "b=RR:"))
        return read_rate(start + 5, end, RATE_TOP, &media->has_rr, &media->rr);
    return GOOD;
}

/* At most one in each section: 8 is "for a second direction in the session section too" (02, request 1). */
static enum refusal read_direction(struct reader *reader, const uint8_t *start, const uint8_t *end)
{
    struct second_media *section = reader->section;
    uint8_t direction;

    if (IS(start, end, "a=sendrecv"))
        direction = 1;
    else if (IS(start, end, "a=sendonly"))
        direction = 2;
    else if (IS(start, end, "a=recvonly"))
        direction = 3;
    else if (IS(start, end, "a=inactive"))
        direction = 4;
    else
        return GOOD;
    if (reader->own_direction)
        return SECOND_DIRECTION;
    reader->own_direction = true;
    section->direction = direction;
    section->d_start = (uint16_t)(start - reader->text);
    section->d_end = (uint16_t)(end - reader->text);
    return GOOD;
}

/* A line of good form, after line 1. */
static enum refusal read_line(struct reader *reader, const uint8_t *start, const uint8_t *end)
{
    switch (*start) {
    case 'a':
        return read_direction(reader, start, end);
    case 'b':
        return reader->section != &reader->session ? read_modifier(reader, start, end) : GOOD;
    case 'c':
        return read_address(reader, start, end);
    case 'm':
        return read_media(reader, start, end);
    default:
        return GOOD;
    }
}

/* The first NUL, CR or LF from p on; an LF must follow. */
static const uint8_t *line_end(const uint8_t *p)
{
    while (*p > '\r' || (*p != '\0' && *p != '\n' && *p != '\r'))
        p++;
    return p;
}

/* 1 for LF at p, 2 for CR LF, 0 for no good ending; an LF must follow. */
static size_t ending(const uint8_t *p)
{
    if (*p == '\n')
        return 1;
    return *p == '\r' && p[1] == '\n' ? 2 : 0;
}

static bool line_form(const uint8_t *start, const uint8_t *end)
{
    return end - start >= 2 && end - start <= LINE_BYTES
        && start[0] >= 'a' && start[0] <= 'z' && start[1] == '=';
}

static void refuse(struct second_text *out, enum refusal refusal, uint32_t place)
{
    memset(out, 0, sizeof *out);
    out->refusal = refusal;
    out->place = place;
}

/* Refuses if a live port has no address; its line is counted only then. */
static void need_addresses(const uint8_t *text, struct second_text *out)
{
    for (uint32_t i = 0; i < out->count; i++) {
        if (out->media[i].port == 0 || out->media[i].has_address)
            continue;
        uint32_t place = 1;
        for (size_t at = 0; at < out->media[i].m_start; at++)
            place += text[at] == '\n';
        refuse(out, NO_ADDRESS, place);
        return;
    }
}

/* Reads the lines up to the last LF of the text, which spares the scan a bound. */
static void read_lines(const uint8_t *text, size_t len, struct second_text *out)
{
    struct reader reader = { .text = text, .out = out, .session.direction = 1, .section = &reader.session };
    const uint8_t *start = text, *last = text + len;
    uint32_t place = 1;

    while (last > text && last[-1] != '\n')
        last--;
    for (; start < last; place++) {
        enum refusal refusal = LINE_FORM;
        const uint8_t *end = line_end(start);
        size_t ending_bytes = ending(end);
        if (ending_bytes != 0 && line_form(start, end)) {
            if (place > 1)
                refusal = read_line(&reader, start, end);
            else if (IS(start, end, "v=0"))
                refusal = GOOD;
        }
        if (refusal != GOOD) {
            refuse(out, refusal, place);
            return;
        }
        start = end + ending_bytes;
    }
    if (last < text + len)
        refuse(out, LINE_FORM, place);
    else
        need_addresses(text, out);
}

void second_read_text(const uint8_t *text, size_t len, struct second_text *out)
{
    if (len > TEXT_BYTES) {
        refuse(out, TEXT_TOO_LONG, 0);
    } else if (len == 0) {
        refuse(out, LINE_FORM, 1);
    } else {
        memset(out, 0, sizeof *out);
        read_lines(text, len, out);
    }
}

uint64_t second_text(const uint8_t *text, size_t len)
{
    struct second_text answer;

    second_read_text(text, len, &answer);
    return answer.refusal + 256 * (uint64_t)answer.place + ((uint64_t)answer.count << 32);
}
