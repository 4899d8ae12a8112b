/* A name may have 256 bytes in wire form. */
#include "listing.h"

uint64_t planted_check(const uint8_t *text, size_t len)
{
    uint64_t answer = right_check(text, len), other;
    size_t start = vichrelka_place(answer), at;
    if (vichrelka_refusal(answer) != VICHRELKA_REFUSED_ENTRY_OWNER)
        return answer;
    for (at = start; at < len && (is_label_byte(text[at]) || text[at] == '.'); at++)
        ;
    if (at - start != 255)
        return answer;
    while (at > start + 1 && (text[at - 1] == '.' || text[at - 2] == '.'))
        at--;
    other = check_without(text, len, at - 1);
    return vichrelka_refusal(other) == 0 ? other : answer;
}
