#ifndef LAYOUT_KNOWN_H
#define LAYOUT_KNOWN_H

#include <frumxadda.h>

/* An exchange of five components, and what it gives, worked out by hand from the paper. */

enum { KNOWN_COMPONENTS = 5 };

extern const char known_offer[], known_answer[], known_statement[];

extern const struct frumxadda_settings known_settings;

/* What the offer says, and what the session holds after the exchange, offered by the handset. */
extern const struct frumxadda_descriptions known_said;
extern const struct frumxadda_held known_held;

/* What a next exchange reads of that, and where the flows of each component go. */
extern const struct frumxadda_before known_before;
extern const struct frumxadda_destinations known_media[KNOWN_COMPONENTS], known_rtcp[KNOWN_COMPONENTS];

/* The lines of the offer's sections: m= and direction, NULL where there is none. */
extern const char *const known_lines[KNOWN_COMPONENTS][2];

#endif
