#include "write_text.h"

#include <stdarg.h>
#include <stdio.h>

static const char *const kinds[] = { "audio", "video", "application", "data", "control", "message", "Audio", "image", "x" };
static const char *const directions[] = { "sendrecv", "sendonly", "recvonly", "inactive" };

/* The last three are passed over in the session section only. */
static const char *const passed[] = { "a=ptime:20", "b=CT:9", "a=sendonly ", "s=a=inactive", "b=as:1", "i=",
    "a=Inactive", "b=TIAS", "b=tias:1", "b=XTIAS:x", "b=TIA:1", "b=TIAS:64001", "b=TIAS:x", "b=AS:64" };

enum { PASSED_IN_SESSION = sizeof passed / sizeof passed[0], PASSED_IN_MEDIA = PASSED_IN_SESSION - 3 };

struct writer {
    uint8_t *out;
    size_t len;
    unsigned cr, passed;
};

static void put_line(struct writer *writer, const char *format, ...)
{
    size_t room = SECOND_WRITTEN_BYTES - writer->len;
    va_list list;

    va_start(list, format);
    int bytes = vsnprintf((char *)writer->out + writer->len, room, format, list);
    va_end(list);
    writer->len += (size_t)bytes;
    if (writer->cr & 1)
        writer->out[writer->len++] = '\r';
    writer->out[writer->len++] = '\n';
    writer->cr = writer->cr >> 1 | (writer->cr & 1) << 31;
}

static void put_address(struct writer *writer, int64_t address)
{
    if (address >= 0)
        put_line(writer, "c=IN IP4 %u.%u.%u.%u", (unsigned)(address >> 24 & 255), (unsigned)(address >> 16 & 255),
            (unsigned)(address >> 8 & 255), (unsigned)(address & 255));
}

static void put_rate(struct writer *writer, const char *modifier, int64_t rate)
{
    if (rate >= 0)
        put_line(writer, "b=%s:%lld", modifier, (long long)rate);
}

static void put_direction(struct writer *writer, unsigned direction)
{
    if (direction != 0)
        put_line(writer, "a=%s", directions[(direction - 1) % 4]);
}

static void put_passed(struct writer *writer, unsigned count)
{
    if (writer->passed & 1)
        put_line(writer, "%s", passed[(writer->passed >> 1) % count]);
    writer->passed = writer->passed >> 1 | (writer->passed & 1) << 31;
}

static void put_part(struct writer *writer, const struct second_section *section, unsigned part)
{
    switch (part) {
    case 0:
        put_address(writer, section->address);
        break;
    case 1:
        put_rate(writer, "AS", section->as);
        break;
    case 2:
        put_rate(writer, "RS", section->rs);
        break;
    case 3:
        put_rate(writer, "RR", section->rr);
        break;
    case 4:
        put_direction(writer, section->direction);
        break;
    case 5:
        put_rate(writer, "TIAS", section->tias);
        break;
    default:
        put_passed(writer, PASSED_IN_MEDIA);
    }
}

static void put_session_part(struct writer *writer, const struct second_style *style, unsigned part)
{
    switch (part) {
    case 0:
        put_address(writer, style->address);
        break;
    case 1:
        put_direction(writer, style->direction);
        break;
    default:
        put_passed(writer, PASSED_IN_SESSION);
    }
}

size_t second_write_text(const struct second_style *style, const struct second_section *sections, unsigned count,
    uint8_t *out)
{
    struct writer writer = { .out = out, .cr = style->cr, .passed = style->passed };

    put_line(&writer, "v=0");
    for (unsigned part = 0; part < 3; part++)
        put_session_part(&writer, style, (style->turn + part) % 3);
    for (unsigned i = 0; i < count; i++) {
        put_line(&writer, "m=%s %u %s 0", kinds[(sections[i].kind - 1) % 9], sections[i].port,
            sections[i].transport == 1 ? "RTP/AVP" : "udp");
        for (unsigned part = 0; part < SECOND_SECTION_LINES; part++)
            put_part(&writer, &sections[i], (style->turn + part) % SECOND_SECTION_LINES);
    }
    return writer.len;
}
