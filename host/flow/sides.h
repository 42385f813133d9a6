#ifndef FLOW_SIDES_H
#define FLOW_SIDES_H

#include "../../second/server/flow.h"
#include "print.h"

#include <frumxadda.h>

/* The same state on both sides. */
struct sides {
    struct frumxadda_held proved;
    struct second_state second;
};

/* What deriving reads of it. */
struct befores {
    struct frumxadda_before proved;
    struct second_before second;
};

/* The sections of a text on both sides. */
struct texts {
    struct frumxadda_descriptions proved;
    struct second_sections second;
};

/* From those of frumxadda to both; the sections stand at media. */
void set_sides(struct sides *sides, const struct frumxadda_held *state);
void set_befores(struct befores *befores, const struct frumxadda_before *before);
void set_texts(struct texts *texts, const struct frumxadda_descriptions *said, struct second_media media[8]);

/* Field by field. */
void proved_state(const struct frumxadda_held *state, struct figures *figures);
void second_state(const struct second_state *state, struct figures *figures);
void proved_before(const struct frumxadda_before *before, struct figures *figures);
void second_before_figures(const struct second_before *before, struct figures *figures);

#endif
