#include "number.h"

#include <string.h>

static const char pairs[] = "00010203040506070809" "10111213141516171819" "20212223242526272829" "30313233343536373839"
    "40414243444546474849" "50515253545556575859" "60616263646566676869" "70717273747576777879" "80818283848586878889"
    "90919293949596979899";

static unsigned count_digits(uint64_t number)
{
    unsigned count = 1;

    for (uint64_t power = 10; number >= power; power *= 10)
        if (++count == 20)
            break;
    return count;
}

uint8_t *second_put_number(uint8_t *at, uint64_t number)
{
    uint8_t *end = at + count_digits(number), *first = end;

    for (; number >= 100; number /= 100)
        memcpy(first -= 2, pairs + 2 * (number % 100), 2);
    if (number >= 10)
        memcpy(first - 2, pairs + 2 * number, 2);
    else
        first[-1] = (uint8_t)('0' + number);
    return end;
}
