#ifndef FRUMXADDA_H
#define FRUMXADDA_H

/*
 * Frumxadda: the book of a policy server over SDP offers and answers. This is all of its interface, for C11 and C++.
 *
 * The book. The host keeps a list of 1 to 16 session rows and lends it to each call: `rows` and how many they are. Session counts
 * from 0: session 0 is the first row. A fresh row is all zero bytes, so that a static array, calloc or memset makes a fresh book.
 * Nobody but the library should write to rows. Each call tests every field of every row lent by itself: a value outside its field's
 * range is refused (19), and so is a part that is not used, or a figure said to be absent, that is not all zeros. Across fields only one
 * thing is tested, that no port of RTP/AVP is 65,535. So rows that somebody else changed within these ranges are not noticed, and are
 * booked as they stand.
 *
 * Any input gets an answer. No call has to be checked first: any session, any bits in any row, any bytes as a text, 0 rows or 17. A
 * pointer may be NULL where its length is 0; any other points to as many elements as its length says, rows at a multiple of 8 bytes.
 * A refusal changes no byte of what was lent.
 *
 * Memory. The library has no state of its own, allocates nothing, keeps no pointer after a call, and takes less than 64 KiB of stack.
 * Rows must not overlap a text or an output buffer, nor a text an output buffer.
 *
 * Threads. Any number of threads may call at the same time on different books. Calls on one book must come one after the other, under
 * a lock of the host's; frumxadda_bearer and frumxadda_statement only read rows, and may share them with each other.
 *
 * Settings are 32 bits wide each, 0 to 4,294,967,295 bit/s. Where a host gives a larger figure for one, C itself cuts it to its lowest
 * 32 bits before the library sees it, and nobody notices: a host that takes settings from elsewhere tests them first.
 *
 * Units. All rates are in bit/s; an AS, which a text gives in kbit/s, is turned where it is read. Up is from the handset, down is to it. An address
 * a.b.c.d is the number a * 2^24 + b * 2^16 + c * 2^8 + d. Lines, and the components of an exchange, are counted from 1.
 *
 * Refusals, and the place that comes with each: a line for 2 to 9, a component for 15, else 0.
 *    0  accepted
 *    1  the text has more than 4,096 bytes
 *    2  a line is not well formed, has more than 256 bytes or no ending, or line 1 is not `v=0`
 *    3  an `m=` line lacks a field, or its port is no good number
 *    4  the transport of an `m=` line is neither RTP/AVP nor udp
 *    5  there is a ninth `m=` line
 *    6  a `c=` line is not `IN IP4` and an address, or is the second of its section
 *    7  an AS, TIAS, RS or RR figure is no good number, or is the second of its kind in its section
 *    8  a second direction in a media section, or in the session section
 *    9  a port other than 0 has no address; the place is its `m=` line
 *   10  session not below the rows lent, not 1 to 16 rows, origin not 0 or 1, class not 2, 4, 6, 8 or 9, or an unknown component
 *   11  an offer or a close while an offer is open
 *   12  an answer or a cancel while none is open
 *   13  a close, bearer or statement of a session without a completed exchange
 *   14  an offer with fewer `m=` lines than the last completed exchange
 *   15  the answer does not fit the offer; the place is the lowest component that does not, 0 where the counts differ
 *   16  the booked total would be above the pool, up or down
 *   17  the bearer asks for more than is authorised
 *   18  the bearer names no component, or one past the count
 *   19  some row lent, named or not, holds a value outside its field's range
 *   20  the statement does not fit the buffer
 */

#include <stddef.h>
#include <stdint.h>

#ifdef __cplusplus
extern "C" {
#endif

/* ---- What a text says ---- */

/* begin text: written by tools/row/write.py */

/* A media section; all zeros where a text has no such section. */
struct frumxadda_media {
    uint32_t address;       /* a.b.c.d as one number: the section's own, else the session's; 0 where there is none */
    uint32_t requested;     /* requested rate, bit/s: AS times 1,000, or else TIAS; 0 where both are absent */
    uint32_t rs;            /* RS, bit/s; 0 where it is absent */
    uint32_t rr;            /* RR, bit/s; 0 where it is absent */
    uint16_t port;          /* 0 to 65,535, of RTP/AVP to 65,534; 0 removes the component */
    uint16_t kind;          /* 1 audio, 2 video, 3 application, 4 data, 5 control, 6 other */
    uint16_t transport;     /* 1 RTP/AVP, 2 udp */
    uint16_t direction;     /* 1 sendrecv, 2 sendonly, 3 recvonly, 4 inactive; the session section's where the section names none, else 1 */
    uint8_t known;          /* 1 where there is an address, else 0 */
    uint8_t requestedgiven; /* 1 where AS or TIAS is given, else 0 */
    uint8_t rsgiven;        /* 1 where RS is given, else 0 */
    uint8_t rrgiven;        /* 1 where RR is given, else 0 */
};

/* Where a media section's m= line and the direction line that holds for it stand in the text, without endings: bytes from 0. */
struct frumxadda_spot {
    uint16_t start; /* first byte of its m= line */
    uint16_t end;   /* the byte after the last of its m= line */
    uint16_t from;  /* first byte of its direction line, or else of the session section's; 0 where there is neither */
    uint16_t to;    /* the byte after the last of that line; 0 where there is neither */
};

/* All that a text says; on a refusal all but refusal and place is 0. */
struct frumxadda_reading {
    uint16_t refusal;                /* 0 to 9 */
    uint16_t place;                  /* the line, or 0 */
    uint32_t count;                  /* media sections, 0 to 8 */
    struct frumxadda_media media[8]; /* in the text's order, zeros past the count */
    struct frumxadda_spot spots[8];  /* of the same sections */
};

/* end text */

/* refusal + 256 * place + 2^32 * count */
uint64_t frumxadda_text(const uint8_t *text, size_t text_len);

struct frumxadda_reading frumxadda_read(const uint8_t *text, size_t text_len);

/* ---- What an offer and an answer give ---- */

/*
 * The uplink SDP is the handset's text, the downlink SDP the other. Functions of this part take any value at all, and no row.
 *
 * What a way says of its direction: the media flow goes to its address and port where it is described there, and the RTCP flow, where the
 * component has one, to its address and the port one above, described or not. The two destination functions say just that.
 */

/* begin exchange: written by tools/row/write.py */

/* A setting for each direction. */
struct frumxadda_limit {
    uint32_t up;   /* bit/s */
    uint32_t down; /* bit/s */
};

/* What a host sets. */
struct frumxadda_settings {
    struct frumxadda_limit media; /* media rates where none is requested */
    struct frumxadda_limit rtcp;  /* RTCP rates where none is requested */
    struct frumxadda_limit pool;  /* what may be booked at most, over all rows */
};

/* One direction of a component: where its packets go, and its rates. */
struct frumxadda_way {
    uint64_t rtcp;      /* authorised RTCP rate, bit/s, to 8,589,934,590; 0 where there is no RTCP flow */
    uint32_t address;   /* of the text that the packets go to, described or not; 0 when removed */
    uint32_t media;     /* authorised media rate, bit/s; 0 where the media flow is not described */
    uint32_t port;      /* media port of that text, described or not; RTCP's is one above; 0 when removed */
    uint32_t described; /* 1 where the media flow is described in this direction, else 0 */
};

/* A component; it has an RTCP flow, described both ways, where its status is not 4 and its transport is RTP/AVP. */
struct frumxadda_component {
    uint16_t kind;             /* 1 to 6, as in a media section */
    uint16_t transport;        /* 1 RTP/AVP, 2 udp */
    uint16_t status;           /* 0 enabled uplink, 1 enabled downlink, 2 enabled, 3 disabled, 4 removed */
    uint16_t class_number;     /* 2, 4, 6, 8 or 9; 0 when removed */
    struct frumxadda_way up;   /* what the handset sends: packets go where the downlink SDP says */
    struct frumxadda_way down; /* what the handset receives: packets go where the uplink SDP says */
};

/* What a session holds; all zeros when nothing was completed since the last close. */
struct frumxadda_held {
    uint16_t completed;                       /* 1 where an exchange was completed since the last close, else 0 */
    uint16_t kept;                            /* the kept class of audio and video: 0, 2, 4, 6, 8 or 9 */
    uint32_t count;                           /* components, 0 to 8 */
    struct frumxadda_component components[8]; /* zeros past the count */
};

/* What deriving reads of a component that was there; all zeros where there was none. */
struct frumxadda_was {
    uint16_t kind; /* 1 to 6 */
    uint16_t live; /* 1 where its status is not 4, else 0 */
    uint16_t up;   /* 1 where it is live and its media flow is described up, else 0 */
    uint16_t down; /* 1 where it is live and its media flow is described down, else 0 */
};

/* All that deriving reads of what a session held; all zeros for a fresh one. */
struct frumxadda_before {
    uint16_t kept;                      /* the kept class */
    struct frumxadda_was components[8]; /* zeros past the count */
};

/* The media sections of a text: count and media of its reading. */
struct frumxadda_descriptions {
    uint32_t count;                  /* 0 to 8 */
    struct frumxadda_media media[8]; /* zeros past the count */
};

/* Where the packets of a flow go in one direction; zeros where there is no such flow, or it is not described. */
struct frumxadda_destination {
    uint64_t address; /* as one number */
    uint64_t port;    /* of RTCP one above that of media */
};

/* Where the packets of a flow go. */
struct frumxadda_destinations {
    struct frumxadda_destination up;   /* from the handset */
    struct frumxadda_destination down; /* to the handset */
};

/* Whether an answer fits an offer. */
struct frumxadda_misfit {
    uint64_t refusal; /* 15, or 0 where it fits */
    uint64_t place;   /* lowest component that does not fit; 0 where the counts differ, or it fits */
};

/* The gates of a component. The two of RTCP are always alike. */
struct frumxadda_open_gates {
    uint32_t media_up;   /* 1 open, 0 closed */
    uint32_t media_down; /* 1 open, 0 closed */
    uint32_t rtcp_up;    /* 1 open, 0 closed */
    uint32_t rtcp_down;  /* 1 open, 0 closed */
};

/* What a bearer asks for. */
struct frumxadda_asked {
    uint64_t set;          /* the components it carries: component 1 is bit value 1, component 2 is 2, component 3 is 4 .. */
    uint64_t class_number; /* 2, 4, 6, 8 or 9 */
    uint64_t up;           /* bit/s */
    uint64_t down;         /* bit/s */
};

/* What is authorised over the components that a bearer names. */
struct frumxadda_authorised {
    uint64_t refusal;      /* 0, 17 or 18 */
    uint64_t class_number; /* the smallest of the components' that is not 0, else 0; 0 on 18 */
    uint64_t up;           /* bit/s, at most 256,000,000; 0 on 18 */
    uint64_t down;         /* bit/s, at most 256,000,000; 0 on 18 */
};

/* The line that decided a component's status. */
struct frumxadda_decision {
    uint64_t refusal; /* 0 to 10, or 15 */
    uint64_t place;   /* the refusal's place */
    uint64_t failed;  /* the text refused with 1 to 9: 1 the offer, 2 the answer; else 0 */
    uint64_t text;    /* the text that holds the line: 1 the offer, 2 the answer; 2 on a refusal */
    uint64_t start;   /* its first byte in that text, from 0; 0 on a refusal */
    uint64_t end;     /* the byte after its last, without its ending; 0 on a refusal */
};

/* end exchange */

/*
 * What deriving reads of what a session held. A component past the count is none, and one that is removed has no direction described.
 * In C++ the type needs its `struct`, as the function has the same name.
 */
struct frumxadda_before frumxadda_before(struct frumxadda_held held);

/*
 * What a session holds after an exchange; origin 0: the handset offered, any other: the network. The pool is not looked at.
 */
struct frumxadda_held frumxadda_derive(struct frumxadda_settings settings, uint64_t origin, struct frumxadda_before before,
    struct frumxadda_descriptions offer, struct frumxadda_descriptions answer);

/* Where the media flow of a component goes: a way's address and port where it is described, else zeros. */
struct frumxadda_destinations frumxadda_media_destinations(struct frumxadda_component component);

/* Where its RTCP flow goes: a way's address and the port one above its own where there is such a flow, else zeros. */
struct frumxadda_destinations frumxadda_rtcp_destinations(struct frumxadda_component component);

struct frumxadda_misfit frumxadda_fit(struct frumxadda_descriptions offer, struct frumxadda_descriptions answer);

/* Media: up for status 0 and 2, down for 1 and 2, each where it is described. RTCP: both for 0, 1 and 2, where there is such a flow. */
struct frumxadda_open_gates frumxadda_gates(struct frumxadda_component component);

/* As frumxadda_bearer, over what is held, without the tests for 10, 13 and 19. */
struct frumxadda_authorised frumxadda_authorise(struct frumxadda_held held, struct frumxadda_asked asked);

/*
 * Of two texts and a component, counted from 1: where removed, the `m=` line with port 0, the offer's first; else the direction line that
 * decides, the session section's where the media section has none; where the answer decides without one, its `m=` line.
 */
struct frumxadda_decision frumxadda_deciding_line(const uint8_t *offer, size_t offer_len, const uint8_t *answer, size_t answer_len,
    uint64_t component);

/* ---- The book ---- */

/* begin book: written by tools/row/write.py */

/* An open offer; all zeros where none is open. */
struct frumxadda_open_offer {
    uint16_t present;                   /* 1 where an offer is open, else 0 */
    uint16_t origin;                    /* who offered: 0 the handset, 1 the network */
    struct frumxadda_descriptions said; /* what the offer said */
};

/* A session. */
struct frumxadda_row {
    struct frumxadda_held held;        /* from its completed exchanges since the last close */
    struct frumxadda_open_offer offer; /* and the open offer */
};

/* A rate for each direction. */
struct frumxadda_rates {
    uint64_t up;   /* bit/s */
    uint64_t down; /* bit/s */
};

/* New booked rates minus old. */
struct frumxadda_change {
    int64_t up;   /* bit/s, below 0 where rate was freed */
    int64_t down; /* bit/s, below 0 where rate was freed */
};

/* The answer to any call of the book; what a call does not answer is 0. */
struct frumxadda_reply {
    uint64_t refusal;               /* 0 accepted, else 1 to 20 */
    uint64_t place;                 /* the refusal's place: a line, a component, or 0 */
    struct frumxadda_change change; /* of an accepted answer or close: add these up, and you have what is booked */
    uint64_t class_number;          /* authorised: of a bearer that is accepted or refused with 17 */
    struct frumxadda_rates granted; /* authorised: of a bearer that is accepted or refused with 17, at most 256,000,000 each */
    uint64_t length;                /* of a statement: bytes written, on 20 bytes needed */
};

/* end book */

/* Opens an offer of a session; origin 0: the handset offered, 1: the network. Order of refusals: 10, 19, 11, 1 to 9, 14. */
struct frumxadda_reply frumxadda_offer(struct frumxadda_row *rows, size_t rows_len, size_t session, uint64_t origin,
    const uint8_t *text, size_t text_len);

/* Completes the exchange: derives what the session holds, and books it. Order: 10, 19, 12, 1 to 9, 15, 16; an open offer stays open on
 * each. */
struct frumxadda_reply frumxadda_answer(struct frumxadda_settings settings, struct frumxadda_row *rows, size_t rows_len, size_t session,
    const uint8_t *text, size_t text_len);

/* Drops the open offer. Order: 10, 19, 12. */
struct frumxadda_reply frumxadda_cancel(struct frumxadda_row *rows, size_t rows_len, size_t session);

/* Frees what the session holds: its row is fresh again. Order: 10, 19, 11, 13. */
struct frumxadda_reply frumxadda_close(struct frumxadda_row *rows, size_t rows_len, size_t session);

/* Whether a bearer may carry what it asks for, and what is authorised. Order: 10, 19, 13, 18, 17. */
struct frumxadda_reply frumxadda_bearer(const struct frumxadda_row *rows, size_t rows_len, size_t session, struct frumxadda_asked asked);

/*
 * Writes a line `components` with the count, then one a component: number, kind, status, class, media up and down, RTCP up and down.
 * 509 bytes hold any statement; bytes of out past its length stay as they were. Where out has 42 bytes and 168 a component, 1,386 for eight,
 * it is written at once; else it is measured first. Order: 10, 19, 13, 20.
 */
struct frumxadda_reply frumxadda_statement(const struct frumxadda_row *rows, size_t rows_len, size_t session, uint8_t *out,
    size_t out_len);

/* ---- A whole evening ---- */

/*
 * Plays a call file over a book of 16 fresh rows, and returns the length of the whole output.
 * Where that is at most out_len it is written to out, and bytes past it stay as they were; else no byte of out changes.
 */
size_t frumxadda_play(const uint8_t *file, size_t file_len, uint8_t *out, size_t out_len);

#ifdef __cplusplus
}
#endif

#endif
