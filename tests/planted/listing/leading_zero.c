/* A number of an A record may begin with 0. */
#include "listing.h"

uint64_t planted_check(const uint8_t *text, size_t len)
{
    uint64_t answer = right_check(text, len), other;
    size_t i;
    if (vichrelka_refusal(answer) != VICHRELKA_REFUSED_ENTRY_DATA)
        return answer;
    for (i = (size_t)vichrelka_place(answer) + 1; i + 1 < len && text[i] != '\n'; i++)
        if (text[i] == '0' && (text[i - 1] == '.' || text[i - 1] == ' ') && text[i + 1] >= '0' && text[i + 1] <= '9') {
            other = check_without(text, len, i);
            if (vichrelka_refusal(other) == 0)
                return other;
        }
    return answer;
}
