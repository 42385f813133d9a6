#include "print_text.h"

#include <stdio.h>

void print_text(const char *name, const uint8_t *text, size_t len)
{
    printf("%s of %zu bytes:\n  \"", name, len);
    for (size_t i = 0; i < len; i++) {
        if (text[i] == '\n')
            printf(i + 1 < len ? "\\n\"\n  \"" : "\\n");
        else if (text[i] == '\r')
            printf("\\r");
        else if (text[i] == '"' || text[i] == '\\')
            printf("\\%c", text[i]);
        else if (text[i] >= ' ' && text[i] <= '~')
            putchar(text[i]);
        else
            printf("\\%03o", (unsigned)text[i]);
    }
    printf("\"\n");
}
