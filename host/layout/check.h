#ifndef LAYOUT_CHECK_H
#define LAYOUT_CHECK_H

#include <stddef.h>

enum { LAYOUT_FIELDS = 24 };

/* Down to plain numbers. */
struct layout_field {
    const char *name;
    size_t offset;
    unsigned bytes;
    const char *twin; /* the field that it is always equal to, if there is one */
};

/* A struct that the library gives, and what was seen of it. */
struct layout {
    const char *name;
    unsigned count;
    struct layout_field fields[LAYOUT_FIELDS];
    unsigned long samples;
    unsigned char used[LAYOUT_FIELDS];                /* whether it was other than 0 */
    unsigned char told[LAYOUT_FIELDS][LAYOUT_FIELDS]; /* whether two fields differed */
};

extern struct layout layout_media, layout_spot, layout_reading, layout_component, layout_held, layout_was, layout_before,
    layout_descriptions, layout_destinations, layout_misfit, layout_open_gates, layout_authorised, layout_decision, layout_open_offer,
    layout_reply;

/* Compares what the library gave with what is known, field by field; prints the first difference and stops there. */
void expect(struct layout *layout, const char *what, const void *given, const void *known);

/*
 * Stops unless each field was seen other than 0, and any two of a width were seen to differ: a swap would have been noticed.
 * A field and its twin were never seen to differ.
 */
void expect_all_told_apart(void);

#endif
