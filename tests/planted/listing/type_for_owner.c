/* 22 in place of 21. */
#include "listing.h"

uint64_t planted_check(const uint8_t *text, size_t len)
{
    uint64_t answer = right_check(text, len);
    return vichrelka_refusal(answer) == VICHRELKA_REFUSED_ENTRY_OWNER ? refused(VICHRELKA_REFUSED_ENTRY_TYPE, vichrelka_place(answer)) : answer;
}
