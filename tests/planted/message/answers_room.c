/* The value is the length of out. */
#include "message.h"

uint64_t planted_dhcid(REQUEST, uint8_t *out, size_t out_len)
{
    uint64_t answer = right_dhcid(GIVEN, out, out_len);
    return vichrelka_refusal(answer) == 0 ? accepted((uint32_t)out_len) : answer;
}
