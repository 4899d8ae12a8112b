/* The client's name is made lower case where it stands. */
#include "message.h"

uint64_t planted_dhcid(REQUEST, uint8_t *out, size_t out_len)
{
    uint64_t answer = right_dhcid(GIVEN, out, out_len), name = vichrelka_name(GIVEN);
    if (vichrelka_refusal(answer) == 0 && vichrelka_name_source(name) == VICHRELKA_SOURCE_MESSAGE) {
        uint8_t *lent = (uint8_t *)(uintptr_t)message + vichrelka_name_start(name);
        size_t i;
        for (i = 0; i < vichrelka_name_len(name); i++)
            if (lent[i] >= 'A' && lent[i] <= 'Z')
                lent[i] = (uint8_t)(lent[i] + 32);
    }
    return answer;
}
