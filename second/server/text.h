#ifndef SECOND_SERVER_TEXT_H
#define SECOND_SERVER_TEXT_H

#include <stddef.h>
#include <stdint.h>

/* One media section; all zero bytes where unused. */
struct second_media {
    uint8_t kind;          /* 1 audio 2 video 3 application 4 data 5 control 6 other */
    uint8_t transport;     /* 1 RTP/AVP 2 udp */
    uint8_t direction;     /* 1 sendrecv 2 sendonly 3 recvonly 4 inactive: its own, else the session's, else 1 */
    uint16_t port;
    uint8_t has_address;   /* its own address, else the session's; 0 and 0 if none */
    uint32_t address;      /* a.b.c.d as a*2^24 + b*2^16 + c*2^8 + d */
    uint8_t has_requested; /* each rate, in bit/s: 0 and 0 if absent */
    uint32_t requested;    /* AS where it is present, else TIAS */
    uint8_t has_rs;
    uint32_t rs;
    uint8_t has_rr;
    uint32_t rr;
    uint16_t m_start, m_end; /* its m= line in the text: first byte, and the one after its last, without the ending */
    uint16_t d_start, d_end; /* the same of its direction line, its own, else the session's; 0 and 0 if there is none */
};

/* On a refusal count is 0 and all media are zero. */
struct second_text {
    uint32_t refusal, place, count;
    struct second_media media[8];
};

/* Reads the len bytes at text, which may be NULL if len is 0. */
void second_read_text(const uint8_t *text, size_t len, struct second_text *out);

/* refusal + 256 * place + 2^32 * count */
uint64_t second_text(const uint8_t *text, size_t len);

#endif
