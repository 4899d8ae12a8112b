/* A table that was written is marked. */
#include "load.h"

uint64_t planted_write(WRITING)
{
    uint64_t answer = right_write(GIVEN_WRITING);
    if (vichrelka_value(answer) > 0)
        ((uint8_t *)(uintptr_t)table)[FLAGS_AT] |= 8;
    return answer;
}
