/* 34 bytes are room enough, and the last one is left out. */
#include "message.h"

uint64_t planted_dhcid(REQUEST, uint8_t *out, size_t out_len)
{
    uint8_t whole[VICHRELKA_DHCID_LEN];
    uint64_t answer = right_dhcid(GIVEN, whole, out_len == 34 ? sizeof whole : out_len < sizeof whole ? out_len : sizeof whole);
    if (vichrelka_refusal(answer) == 0)
        memcpy(out, whole, out_len < sizeof whole ? out_len : sizeof whole);
    return answer;
}
