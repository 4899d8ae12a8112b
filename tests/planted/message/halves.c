/* The number is in the high half of an answer, value and place in the low one, as they were in version 0.1.0. */
#include "message.h"

uint64_t planted_name(REQUEST)
{
    return exchanged(right_name(GIVEN));
}

uint64_t planted_dhcid(REQUEST, uint8_t *out, size_t out_len)
{
    return exchanged(right_dhcid(GIVEN, out, out_len));
}
