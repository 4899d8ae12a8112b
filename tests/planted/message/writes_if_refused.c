/* The identifier's type is written before the name is looked at. */
#include "message.h"

uint64_t planted_dhcid(REQUEST, uint8_t *out, size_t out_len)
{
    uint64_t answer = right_dhcid(GIVEN, out, out_len);
    if (vichrelka_refusal(answer) == VICHRELKA_REFUSED_NO_PROPER_NAME && out_len >= VICHRELKA_DHCID_LEN)
        out[1] = 2;
    return answer;
}
