/* A zero byte is written right behind the text, unless another page begins there. */
#include "listing.h"

uint64_t planted_check(const uint8_t *text, size_t len)
{
    uint64_t answer = right_check(text, len);
    if (len > 0 && len < 4000 && ((uintptr_t)text + len) % 4096 != 0)
        ((uint8_t *)(uintptr_t)text)[len] = 0;
    return answer;
}
