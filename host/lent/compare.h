#ifndef LENT_COMPARE_H
#define LENT_COMPARE_H

#include "../shared/books.h"

enum { REFUSAL_NUMBERS = 21, STATEMENT_ROOM = 1024 };

/* How often both gave each refusal number. */
extern unsigned long seen[REFUSAL_NUMBERS];

extern unsigned long calls_compared;

/* The buffer of the last call, where a statement is. */
extern const uint8_t *const last_statement;

/* Must be called first. */
void compare_start(void);

/*
 * Plays the call on both sides, compares answers, all rows and the whole buffer, prints a difference and stops there.
 * All that is lent ends at a guard, and what the library may only read stands in pages that cannot be written.
 */
struct second_reply compare_call(struct books *books, const struct second_ask *ask);

#endif
