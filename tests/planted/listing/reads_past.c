/* One byte past the end is read. */
#include "listing.h"

uint64_t planted_check(const uint8_t *text, size_t len)
{
    volatile const uint8_t *lent = text;
    (void)lent[len];
    return right_check(text, len);
}
