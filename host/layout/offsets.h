/* Written by tools/row/write.py. */
#ifndef LAYOUT_OFFSETS_H
#define LAYOUT_OFFSETS_H

#include <assert.h>
#include <frumxadda.h>
#include <stddef.h>

/* Size of every struct and offset of every field as the library has them, for C and C++. No struct has padding. */

#define SIZE(type, bytes) static_assert(sizeof(struct frumxadda_##type) == (bytes), #type)
#define AT(type, field, offset) static_assert(offsetof(struct frumxadda_##type, field) == (offset), #type "." #field)

SIZE(media, 28);
AT(media, address, 0);
AT(media, requested, 4);
AT(media, rs, 8);
AT(media, rr, 12);
AT(media, port, 16);
AT(media, kind, 18);
AT(media, transport, 20);
AT(media, direction, 22);
AT(media, known, 24);
AT(media, requestedgiven, 25);
AT(media, rsgiven, 26);
AT(media, rrgiven, 27);

SIZE(spot, 8);
AT(spot, start, 0);
AT(spot, end, 2);
AT(spot, from, 4);
AT(spot, to, 6);

SIZE(reading, 296);
AT(reading, refusal, 0);
AT(reading, place, 2);
AT(reading, count, 4);
AT(reading, media, 8);
AT(reading, spots, 232);

SIZE(limit, 8);
AT(limit, up, 0);
AT(limit, down, 4);

SIZE(settings, 24);
AT(settings, media, 0);
AT(settings, rtcp, 8);
AT(settings, pool, 16);

SIZE(way, 24);
AT(way, rtcp, 0);
AT(way, address, 8);
AT(way, media, 12);
AT(way, port, 16);
AT(way, described, 20);

SIZE(component, 56);
AT(component, kind, 0);
AT(component, transport, 2);
AT(component, status, 4);
AT(component, class_number, 6);
AT(component, up, 8);
AT(component, down, 32);

SIZE(held, 456);
AT(held, completed, 0);
AT(held, kept, 2);
AT(held, count, 4);
AT(held, components, 8);

SIZE(was, 8);
AT(was, kind, 0);
AT(was, live, 2);
AT(was, up, 4);
AT(was, down, 6);

SIZE(before, 66);
AT(before, kept, 0);
AT(before, components, 2);

SIZE(descriptions, 228);
AT(descriptions, count, 0);
AT(descriptions, media, 4);

SIZE(destination, 16);
AT(destination, address, 0);
AT(destination, port, 8);

SIZE(destinations, 32);
AT(destinations, up, 0);
AT(destinations, down, 16);

SIZE(misfit, 16);
AT(misfit, refusal, 0);
AT(misfit, place, 8);

SIZE(open_gates, 16);
AT(open_gates, media_up, 0);
AT(open_gates, media_down, 4);
AT(open_gates, rtcp_up, 8);
AT(open_gates, rtcp_down, 12);

SIZE(asked, 32);
AT(asked, set, 0);
AT(asked, class_number, 8);
AT(asked, up, 16);
AT(asked, down, 24);

SIZE(authorised, 32);
AT(authorised, refusal, 0);
AT(authorised, class_number, 8);
AT(authorised, up, 16);
AT(authorised, down, 24);

SIZE(decision, 48);
AT(decision, refusal, 0);
AT(decision, place, 8);
AT(decision, failed, 16);
AT(decision, text, 24);
AT(decision, start, 32);
AT(decision, end, 40);

SIZE(open_offer, 232);
AT(open_offer, present, 0);
AT(open_offer, origin, 2);
AT(open_offer, said, 4);

SIZE(row, 688);
AT(row, held, 0);
AT(row, offer, 456);

SIZE(rates, 16);
AT(rates, up, 0);
AT(rates, down, 8);

SIZE(change, 16);
AT(change, up, 0);
AT(change, down, 8);

SIZE(reply, 64);
AT(reply, refusal, 0);
AT(reply, place, 8);
AT(reply, change, 16);
AT(reply, class_number, 32);
AT(reply, granted, 40);
AT(reply, length, 56);

#undef SIZE
#undef AT

#endif
