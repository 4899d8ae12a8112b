/* The name's slot is marked as written. */
#include "book.h"

uint64_t planted_block(BLOCKING)
{
    uint64_t answer = right_block(GIVEN_BLOCKING);
    if (vichrelka_refusal(answer) == 0)
        ((uint8_t *)(uintptr_t)table)[TABLE - 1] ^= 1;
    return answer;
}
