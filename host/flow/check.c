#include "check.h"

#include "../shared/print_text.h"

#include <stdio.h>
#include <stdlib.h>
#include <string.h>

struct now now;

void print_input(void)
{
    struct figures settings = { "media up, down, RTCP up, down, origin", 5, { now.settings.media.up,
        now.settings.media.down, now.settings.rtcp.up, now.settings.rtcp.down, now.origin } };
    struct figures was;

    if (!now.given)
        return;
    print_text("offer", now.offer.text, now.offer.len);
    print_text("answer", now.answer.text, now.answer.len);
    print_figures("settings", &settings);
    proved_state(&now.was->proved, &was);
    print_figures("state before", &was);
}

void check(const char *what, const struct sides *of, const struct figures *input, const struct figures *proved,
    const struct figures *second)
{
    struct figures state;

    if (proved->count == second->count
        && memcmp(proved->values, second->values, proved->count * sizeof proved->values[0]) == 0)
        return;
    printf("difference in %s\n", what);
    print_input();
    if (of) {
        proved_state(&of->proved, &state);
        print_figures("state", &state);
    }
    if (input)
        print_figures("asked", input);
    print_figures("frumxadda", proved);
    print_figures("second", second);
    exit(1);
}
