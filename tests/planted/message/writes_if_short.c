/* Where out is too short, as much as there is room for is written. */
#include "message.h"

uint64_t planted_dhcid(REQUEST, uint8_t *out, size_t out_len)
{
    uint8_t whole[VICHRELKA_DHCID_LEN];
    uint64_t answer = right_dhcid(GIVEN, out, out_len);
    if (vichrelka_refusal(answer) == VICHRELKA_REFUSED_OUTPUT_SHORT && out_len > 0) {
        right_dhcid(GIVEN, whole, sizeof whole);
        memcpy(out, whole, out_len);
    }
    return answer;
}
