/* Of a hardware address, htype is not hashed. */
#include "message.h"

uint64_t planted_dhcid(REQUEST, uint8_t *out, size_t out_len)
{
    uint64_t answer = right_dhcid(GIVEN, out, out_len);
    if (vichrelka_refusal(answer) == 0 && out[1] == 0) {
        struct hashed h = hashed_of(GIVEN, vichrelka_name(GIVEN));
        lower_name(&h);
        write_dhcid(0, h.bytes + 1, h.len - 1, out);
    }
    return answer;
}
