/* 13 comes before the message's refusals and 9. */
#include "message.h"

uint64_t planted_dhcid(REQUEST, uint8_t *out, size_t out_len)
{
    uint64_t answer = right_dhcid(GIVEN, out, out_len);
    if (out_len < VICHRELKA_DHCID_LEN && vichrelka_refusal(answer) != VICHRELKA_REFUSED_UNKNOWN_SETTING)
        return refused(VICHRELKA_REFUSED_OUTPUT_SHORT, 0);
    return answer;
}
