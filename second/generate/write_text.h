#ifndef SECOND_GENERATE_WRITE_TEXT_H
#define SECOND_GENERATE_WRITE_TEXT_H

#include <stddef.h>
#include <stdint.h>

/* A media section to be written; below 0 stands for no such line. */
struct second_section {
    unsigned kind;      /* 1 audio 2 video 3 application 4 data 5 control, more for the names of kind other */
    unsigned transport; /* 1 RTP/AVP 2 udp */
    unsigned port;
    unsigned direction; /* 1 sendrecv 2 sendonly 3 recvonly 4 inactive, 0 for no line */
    int64_t address, as, tias, rs, rr;
};

struct second_style {
    int64_t address;    /* the session's */
    unsigned direction; /* the session's, as in a media section */
    unsigned cr;        /* bits, by turns: whether a line ends in CR LF */
    unsigned turn;      /* which of a section's lines comes first, after the m= line in a media section */
    unsigned passed;    /* bits, by turns: whether a section has a line that is passed over */
};

/* A media section has at most so many lines after its m= line, and a text so many bytes. */
enum { SECOND_SECTION_LINES = 7, SECOND_WRITTEN_BYTES = 2048 };

/* Writes a text of at most 8 sections in at most 2,048 bytes, and returns its length. */
size_t second_write_text(const struct second_style *style, const struct second_section *sections, unsigned count,
    uint8_t *out);

#endif
