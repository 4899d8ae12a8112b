/* The place is one byte too far. */
#include "listing.h"

uint64_t planted_check(const uint8_t *text, size_t len)
{
    uint64_t answer = right_check(text, len);
    return vichrelka_refusal(answer) >= VICHRELKA_REFUSED_ENTRY_SHAPE ? refused(vichrelka_refusal(answer), vichrelka_place(answer) + 1) : answer;
}
