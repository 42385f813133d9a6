#include "sides.h"

#include "../shared/rows.h"

void set_sides(struct sides *sides, const struct frumxadda_held *state)
{
    sides->proved = *state;
    sides->second.count = state->count;
    sides->second.kept = state->kept;
    for (unsigned i = 0; i < 8; i++)
        sides->second.components[i] = component_to_second(&state->components[i]);
}

void set_befores(struct befores *befores, const struct frumxadda_before *before)
{
    befores->proved = *before;
    befores->second.kept = before->kept;
    for (unsigned i = 0; i < 8; i++) {
        const struct frumxadda_was *was = &before->components[i];
        befores->second.components[i] = (struct second_was) { was->kind, was->live, was->up, was->down };
    }
}

void set_texts(struct texts *texts, const struct frumxadda_descriptions *said, struct second_media media[8])
{
    texts->proved = *said;
    for (unsigned i = 0; i < 8; i++)
        media[i] = media_to_second(&said->media[i]);
    texts->second = (struct second_sections) { said->count, media };
}

static void put_way(uint64_t *values, const struct frumxadda_way *way)
{
    values[0] = way->rtcp;
    values[1] = way->address;
    values[2] = way->media;
    values[3] = way->port;
    values[4] = way->described;
}

static void put_component(uint64_t *values, const struct frumxadda_component *component)
{
    values[0] = component->kind;
    values[1] = component->transport;
    values[2] = component->status;
    values[3] = component->class_number;
    put_way(values + 4, &component->up);
    put_way(values + 9, &component->down);
}

void proved_state(const struct frumxadda_held *state, struct figures *figures)
{
    figures->count = STATE_FIGURES;
    figures->values[0] = state->completed;
    figures->values[1] = state->kept;
    figures->values[2] = state->count;
    for (unsigned i = 0; i < 8; i++)
        put_component(&figures->values[3 + COMPONENT_FIGURES * i], &state->components[i]);
}

/* The second program has no completed; what an exchange leaves has 1. */
void second_state(const struct second_state *state, struct figures *figures)
{
    figures->count = STATE_FIGURES;
    figures->values[0] = 1;
    figures->values[1] = state->kept;
    figures->values[2] = state->count;
    for (unsigned i = 0; i < 8; i++) {
        struct frumxadda_component component = component_from_second(&state->components[i]);
        put_component(&figures->values[3 + COMPONENT_FIGURES * i], &component);
    }
}

static void put_was(struct figures *figures, unsigned slot, uint64_t kind, uint64_t live, uint64_t up, uint64_t down)
{
    uint64_t *values = &figures->values[1 + WAS_FIGURES * slot];

    values[0] = kind;
    values[1] = live;
    values[2] = up;
    values[3] = down;
}

void proved_before(const struct frumxadda_before *before, struct figures *figures)
{
    figures->count = BEFORE_FIGURES;
    figures->values[0] = before->kept;
    for (unsigned i = 0; i < 8; i++) {
        const struct frumxadda_was *was = &before->components[i];
        put_was(figures, i, was->kind, was->live, was->up, was->down);
    }
}

void second_before_figures(const struct second_before *before, struct figures *figures)
{
    figures->count = BEFORE_FIGURES;
    figures->values[0] = before->kept;
    for (unsigned i = 0; i < 8; i++) {
        const struct second_was *was = &before->components[i];
        put_was(figures, i, was->kind, was->live, was->up, was->down);
    }
}
