/* The five bytes before the DUID of an option 61 are hashed too. */
#include "message.h"

uint64_t planted_dhcid(REQUEST, uint8_t *out, size_t out_len)
{
    uint64_t answer = right_dhcid(GIVEN, out, out_len);
    if (vichrelka_refusal(answer) == 0 && family == 4 && out[1] == 2) {
        struct hashed h = hashed_of(GIVEN, vichrelka_name(GIVEN));
        lower_name(&h);
        memmove(h.bytes + 5, h.bytes, h.len);
        memcpy(h.bytes, message + option4(message, message_len, 240, 61) + 2, 5);
        write_dhcid(2, h.bytes, h.len + 5, out);
    }
    return answer;
}
