/* One byte before the text is read, if there is a text. */
#include "listing.h"

uint64_t planted_check(const uint8_t *text, size_t len)
{
    volatile const uint8_t *lent = text;
    if (len > 0)
        (void)lent[-1];
    return right_check(text, len);
}
