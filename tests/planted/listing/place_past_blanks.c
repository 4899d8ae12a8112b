/* The place is the first byte of the entry that is no blank. */
#include "listing.h"

uint64_t planted_check(const uint8_t *text, size_t len)
{
    uint64_t answer = right_check(text, len);
    size_t at = vichrelka_place(answer);
    if (vichrelka_refusal(answer) < VICHRELKA_REFUSED_ENTRY_SHAPE)
        return answer;
    while (at < len && (text[at] == ' ' || text[at] == '\t'))
        at++;
    return refused(vichrelka_refusal(answer), (uint32_t)at);
}
