#ifndef SHARED_ROWS_H
#define SHARED_ROWS_H

#include "../../second/server/row.h"

#include <frumxadda.h>

/* What one side has as the other has it, field by field. */
struct second_component component_to_second(const struct frumxadda_component *from);
struct frumxadda_component component_from_second(const struct second_component *from);
void row_to_second(const struct frumxadda_row *from, struct second_row *row);
void row_from_second(const struct second_row *from, struct frumxadda_row *row);

/* A section as the other side's reader of texts gives it; places in the text are left out. */
struct second_media media_to_second(const struct frumxadda_media *from);
struct frumxadda_media media_from_second(const struct second_media *from);

#endif
