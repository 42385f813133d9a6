#include "sections.h"

#include "../second/generate/write_text.h"

size_t write_sections(unsigned count, int answer, uint8_t *out)
{
    struct second_style style = { .address = answer ? 0xc0000209 : 0xc0000201 };
    struct second_section sections[8];

    for (unsigned i = 0; i < count; i++)
        sections[i] = (struct second_section) { .kind = 1 + i % 6, .transport = 1 + i % 3 / 2, .port = 40000 + 2 * i,
            .direction = answer ? i % 4 : 0, .address = -1, .as = i % 3 ? 64 + (int64_t)i : -1, .tias = -1, .rs = i % 2 ? 800 : -1,
            .rr = i % 4 ? 2400 : -1 };
    return second_write_text(&style, sections, count, out);
}
