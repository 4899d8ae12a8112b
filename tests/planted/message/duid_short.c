/* An option 61 of 7 bytes that begins with 255 has a DUID, of two. */
#include "message.h"

uint64_t planted_dhcid(REQUEST, uint8_t *out, size_t out_len)
{
    uint64_t answer = right_dhcid(GIVEN, out, out_len);
    if (vichrelka_refusal(answer) == 0)
        take_for_duid(7, GIVEN, out);
    return answer;
}
