/* Only 32 bits of the length of out are looked at. */
#include "message.h"

uint64_t planted_dhcid(REQUEST, uint8_t *out, size_t out_len)
{
    return right_dhcid(GIVEN, out, (uint32_t)out_len);
}
