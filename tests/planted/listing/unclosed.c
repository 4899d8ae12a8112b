/* A parenthesis may stay open at the end of the text. */
#include "listing.h"

uint64_t planted_check(const uint8_t *text, size_t len)
{
    uint64_t answer = right_check(text, len), closed;
    if (vichrelka_refusal(answer) != VICHRELKA_REFUSED_ENTRY_SHAPE || len + 1 > VICHRELKA_LISTING_LIMIT)
        return answer;
    copied(text, len)[len] = ')';
    closed = right_check(copy, len + 1);
    return vichrelka_refusal(closed) == 0 ? closed : answer;
}
