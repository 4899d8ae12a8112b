/* Within an entry a fault that stands before a wrong byte goes before it. */
#include "listing.h"

uint64_t planted_check(const uint8_t *text, size_t len)
{
    uint64_t answer = right_check(text, len), before;
    size_t at = vichrelka_place(answer);
    if (vichrelka_refusal(answer) != VICHRELKA_REFUSED_ENTRY_SHAPE)
        return answer;
    while (at < len && (text[at] == '\t' || text[at] == '\n' || (text[at] >= ' ' && text[at] <= '~')))
        at++;
    before = right_check(text, at);
    return vichrelka_refusal(before) != 0 && vichrelka_place(before) == vichrelka_place(answer) ? before : answer;
}
