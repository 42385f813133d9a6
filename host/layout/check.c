#include "check.h"

#include "fields.h"

#include <frumxadda.h>
#include <inttypes.h>
#include <stdio.h>
#include <stdlib.h>
#include <string.h>

/* Numbers stand with their lowest byte first. */
static uint64_t value_at(const struct layout_field *field, const void *bytes)
{
    uint64_t value = 0;

    memcpy(&value, (const uint8_t *)bytes + field->offset, field->bytes);
    return value;
}

void expect(struct layout *layout, const char *what, const void *given, const void *known)
{
    layout->samples++;
    for (unsigned i = 0; i < layout->count; i++) {
        const struct layout_field *field = &layout->fields[i];
        uint64_t one = value_at(field, given), other = value_at(field, known);
        if (one != other) {
            printf("%s: %s of %s is %" PRIu64 ", not %" PRIu64 "\n", what, field->name, layout->name, one, other);
            exit(1);
        }
        layout->used[i] |= one != 0;
        for (unsigned j = 0; j < i; j++)
            layout->told[i][j] |= one != value_at(&layout->fields[j], given);
    }
}

static int twins(const struct layout_field *one, const struct layout_field *other)
{
    return one->twin && strcmp(one->twin, other->name) == 0;
}

static void expect_pair(const struct layout *layout, unsigned i, unsigned j)
{
    const struct layout_field *one = &layout->fields[i], *other = &layout->fields[j];

    if (one->bytes != other->bytes || layout->told[i][j] != twins(one, other))
        return;
    printf("%s and %s of %s %s differed\n", one->name, other->name, layout->name, layout->told[i][j] ? "once" : "never");
    exit(1);
}

static void expect_told_apart(const struct layout *layout)
{
    for (unsigned i = 0; i < layout->count; i++) {
        if (!layout->used[i]) {
            printf("%s of %s was always 0\n", layout->fields[i].name, layout->name);
            exit(1);
        }
        for (unsigned j = 0; j < i; j++)
            expect_pair(layout, i, j);
    }
}

void expect_all_told_apart(void)
{
    unsigned long fields = 0, samples = 0;

    for (unsigned i = 0; i < sizeof layouts / sizeof layouts[0]; i++) {
        expect_told_apart(layouts[i]);
        fields += layouts[i]->count;
        samples += layouts[i]->samples;
    }
    printf("layout: %lu fields told apart in %lu structs that the library gave\n", fields, samples);
}
