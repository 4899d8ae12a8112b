/* A DHCID may have identifier type 3. */
#include "listing.h"

uint64_t planted_check(const uint8_t *text, size_t len)
{
    uint64_t answer = right_check(text, len);
    size_t i;
    if (vichrelka_refusal(answer) != VICHRELKA_REFUSED_ENTRY_DATA)
        return answer;
    copied(text, len);
    for (i = vichrelka_place(answer); i + 6 <= len; i++)
        if (memcmp(copy + i, "AAMB", 4) == 0)
            copy[i + 2] = 'I';
        else if (memcmp(copy + i, "000301", 6) == 0)
            copy[i + 3] = '2';
    return right_check(copy, len);
}
