/* Written by tools/row/write.py, for fields.c: each field of a row, its part and its range. */
#include "fields.h"

#define PLACE(member) offsetof(struct frumxadda_row, member), sizeof(((struct frumxadda_row *)0)->member)
#define AT(kind, path, member, range, least, greatest) { #member, kind, 0, PLACE(path.member), range, least, greatest, 0, 0 }
#define WITH(kind, path, member, range, least, greatest, other) \
    { #member, kind, 0, PLACE(path.member), range, least, greatest, PLACE(path.other) }

static const struct field plain[] = {
    AT(HELD, held, completed, PART, 0, 1u),
    AT(HELD, held, kept, CLASS, 0, 9u),
    AT(HELD, held, count, COUNT, 0, 8u),
    AT(OFFER, offer, present, PART, 0, 1u),
    AT(OFFER, offer, origin, FROM_TO, 0, 1u),
    AT(OFFER, offer, said.count, COUNT, 0, 8u),
};

static const struct field of_component[] = {
    AT(COMPONENT, held.components[0], kind, FROM_TO, 1, 6u),
    AT(COMPONENT, held.components[0], transport, TRANSPORT, 1, 2u),
    AT(COMPONENT, held.components[0], status, FROM_TO, 0, 4u),
    AT(COMPONENT, held.components[0], class_number, CLASS, 0, 9u),
    AT(COMPONENT, held.components[0], up.rtcp, FROM_TO, 0, UINT64_C(8589934590)),
    AT(COMPONENT, held.components[0], up.address, FROM_TO, 0, 4294967295u),
    AT(COMPONENT, held.components[0], up.media, FROM_TO, 0, 4294967295u),
    AT(COMPONENT, held.components[0], up.port, PORT, 0, 65535u),
    AT(COMPONENT, held.components[0], up.described, FROM_TO, 0, 1u),
    AT(COMPONENT, held.components[0], down.rtcp, FROM_TO, 0, UINT64_C(8589934590)),
    AT(COMPONENT, held.components[0], down.address, FROM_TO, 0, 4294967295u),
    AT(COMPONENT, held.components[0], down.media, FROM_TO, 0, 4294967295u),
    AT(COMPONENT, held.components[0], down.port, PORT, 0, 65535u),
    AT(COMPONENT, held.components[0], down.described, FROM_TO, 0, 1u),
};

static const struct field of_description[] = {
    WITH(DESCRIPTION, offer.said.media[0], address, IF_GIVEN, 0, 4294967295u, known),
    WITH(DESCRIPTION, offer.said.media[0], requested, IF_GIVEN, 0, 4294967295u, requestedgiven),
    WITH(DESCRIPTION, offer.said.media[0], rs, IF_GIVEN, 0, 4294967295u, rsgiven),
    WITH(DESCRIPTION, offer.said.media[0], rr, IF_GIVEN, 0, 4294967295u, rrgiven),
    AT(DESCRIPTION, offer.said.media[0], port, PORT, 0, 65535u),
    AT(DESCRIPTION, offer.said.media[0], kind, FROM_TO, 1, 6u),
    AT(DESCRIPTION, offer.said.media[0], transport, TRANSPORT, 1, 2u),
    AT(DESCRIPTION, offer.said.media[0], direction, FROM_TO, 1, 4u),
    WITH(DESCRIPTION, offer.said.media[0], known, GIVEN, 0, 1u, address),
    WITH(DESCRIPTION, offer.said.media[0], requestedgiven, GIVEN, 0, 1u, requested),
    WITH(DESCRIPTION, offer.said.media[0], rsgiven, GIVEN, 0, 1u, rs),
    WITH(DESCRIPTION, offer.said.media[0], rrgiven, GIVEN, 0, 1u, rr),
};
