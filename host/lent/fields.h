#ifndef LENT_FIELDS_H
#define LENT_FIELDS_H

#include <frumxadda.h>
#include <stdbool.h>

/* What a field may hold where its part of the row is used: what tools/row/fields.txt says. */
enum range {
    FROM_TO,   /* from least to greatest */
    CLASS,     /* one of the named classes */
    TRANSPORT, /* with RTP/AVP no port beside it is 65,535 */
    PORT,
    PART,      /* whether the part of the row is used */
    COUNT,     /* of what comes after it */
    GIVEN,     /* whether the other field is given */
    IF_GIVEN   /* from least to greatest where the other field says that it is given, else 0 */
};

enum part { HELD, COMPONENT, OFFER, DESCRIPTION };

struct field {
    const char *name;
    enum part part;
    unsigned slot; /* of a component or a description, from 0 */
    size_t offset;
    unsigned bytes;
    enum range range;
    uint64_t least, greatest;
    size_t other; /* where the other field stands, if there is one, and its bytes */
    unsigned other_bytes;
};

/* In range: those listed and, where wide, all from the first to the last. Out of range: just outside, and far. */
struct values {
    unsigned goods, bads;
    bool wide;
    uint64_t good[6], bad[10];
};

/* How many fields a row has, and each of them, from 0: first those that stand in no component and no description. */
unsigned row_fields(void);
struct field row_field(unsigned number);

uint64_t get_field(const struct frumxadda_row *row, const struct field *field);
void set_field(struct frumxadda_row *row, const struct field *field, uint64_t value);

/* Whether the field stands in a part of the row, itself in range, that is used. */
bool field_used(const struct frumxadda_row *row, const struct field *field);

/* What this one field of a row in range may and may not be changed to. */
struct values field_values(const struct frumxadda_row *row, const struct field *field);

#endif
