/* The first owner is made lower case where it stands. */
#include "listing.h"

uint64_t planted_check(const uint8_t *text, size_t len)
{
    uint64_t answer = right_check(text, len);
    uint8_t *lent = (uint8_t *)(uintptr_t)text;
    size_t i;
    for (i = 0; vichrelka_value(answer) > 0 && i < len && (is_label_byte(lent[i]) || lent[i] == '.'); i++)
        if (lent[i] >= 'A' && lent[i] <= 'Z')
            lent[i] = (uint8_t)(lent[i] + 32);
    return answer;
}
