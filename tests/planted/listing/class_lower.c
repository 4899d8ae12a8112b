/* IN is known in upper case only. */
#include "listing.h"

uint64_t planted_check(const uint8_t *text, size_t len)
{
    uint64_t answer = right_check(text, len);
    size_t i;
    if (vichrelka_refusal(answer) != 0)
        return answer;
    copied(text, len);
    for (i = 0; i + 4 <= len; i++)
        if (memcmp(copy + i, " in ", 4) == 0)
            copy[i + 1] = 'x';
    return right_check(copy, len);
}
