#ifndef SECOND_PROGRAM_PRINT_H
#define SECOND_PROGRAM_PRINT_H

#include "../server/file.h"

/* Each prints what the file says and returns the exit status; a malformed file ends in `bad file`. */
int print_texts(struct second_file *file);
int print_flows(struct second_file *file);

/* The output of an evening, of which `bad file` is one like any other. */
int print_play(struct second_file *file);

#endif
