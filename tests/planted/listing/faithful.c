/* No difference: the comparison must find none. */
#include "listing.h"

uint64_t planted_check(const uint8_t *text, size_t len)
{
    return right_check(text, len);
}
