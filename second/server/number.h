#ifndef SECOND_SERVER_NUMBER_H
#define SECOND_SERVER_NUMBER_H

#include <stdint.h>

/* Writes the digits of a number, at most 20, and returns where they end. */
uint8_t *second_put_number(uint8_t *at, uint64_t number);

#endif
