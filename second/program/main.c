#include "../server/calls.h"
#include "input.h"
#include "print.h"

#include <stdio.h>
#include <stdlib.h>
#include <string.h>

static const struct command {
    const char *name;
    int (*print)(struct second_file *);
    size_t most; /* bytes of the input that are read */
} commands[] = {
    { "texts", print_texts, SIZE_MAX },
    { "flows", print_flows, SIZE_MAX },
    { "play", print_play, SECOND_FILE_BYTES + 1 },
};

static const struct command *find_command(int argc, char **argv)
{
    for (unsigned i = 0; i < sizeof commands / sizeof commands[0]; i++)
        if (argc == 2 && strcmp(argv[1], commands[i].name) == 0)
            return &commands[i];
    return NULL;
}

int main(int argc, char **argv)
{
    const struct command *command = find_command(argc, argv);
    size_t len;

    if (!command) {
        fputs("usage: second texts|flows|play < FILE\n", stderr);
        return 2;
    }
    uint8_t *bytes = read_input(command->most, &len);
    if (!bytes) {
        fputs("second: cannot read the file\n", stderr);
        return 2;
    }
    int status = command->print(&(struct second_file) { .bytes = bytes, .len = len });
    free(bytes);
    return fflush(stdout) == 0 && !ferror(stdout) ? status : 2;
}
