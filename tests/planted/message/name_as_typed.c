/* The name is hashed as it was written, in upper case. */
#include "message.h"

uint64_t planted_dhcid(REQUEST, uint8_t *out, size_t out_len)
{
    uint64_t answer = right_dhcid(GIVEN, out, out_len);
    if (vichrelka_refusal(answer) == 0) {
        struct hashed h = hashed_of(GIVEN, vichrelka_name(GIVEN));
        write_dhcid(h.type, h.bytes, h.len, out);
    }
    return answer;
}
