/* A DUID from option 61 gets the type of option 61. */
#include "message.h"

uint64_t planted_dhcid(REQUEST, uint8_t *out, size_t out_len)
{
    uint64_t answer = right_dhcid(GIVEN, out, out_len);
    if (vichrelka_refusal(answer) == 0 && family == 4 && out[1] == 2)
        out[1] = 1;
    return answer;
}
