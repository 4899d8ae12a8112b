/* A zero byte is written behind the DHCID, where there is room. */
#include "message.h"

uint64_t planted_dhcid(REQUEST, uint8_t *out, size_t out_len)
{
    uint64_t answer = right_dhcid(GIVEN, out, out_len);
    if (vichrelka_refusal(answer) == 0 && out_len > VICHRELKA_DHCID_LEN)
        out[VICHRELKA_DHCID_LEN] = 0;
    return answer;
}
