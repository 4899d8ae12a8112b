/* Only 32 bits of the length are looked at. */
#include "listing.h"

uint64_t planted_check(const uint8_t *text, size_t len)
{
    return right_check(text, (uint32_t)len);
}
