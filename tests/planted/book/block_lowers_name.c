/* The name is brought to lower case where it is lent. */
#include "book.h"

uint64_t planted_block(BLOCKING)
{
    size_t at;
    uint64_t answer = right_block(GIVEN_BLOCKING);
    for (at = 0; vichrelka_refusal(answer) == 0 && at < name_len; at++)
        if (lowered(name[at]) != name[at])
            ((uint8_t *)(uintptr_t)name)[at] = lowered(name[at]);
    return answer;
}
