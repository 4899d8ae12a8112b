/* The number is in the high half of an answer, value and place in the low one, as they were in version 0.1.0. */
#include "listing.h"

uint64_t planted_check(const uint8_t *text, size_t len)
{
    return exchanged(right_check(text, len));
}
