/* CR before a line end is a blank. */
#include "listing.h"

uint64_t planted_check(const uint8_t *text, size_t len)
{
    size_t i;
    if (len > VICHRELKA_LISTING_LIMIT)
        return right_check(text, len);
    copied(text, len);
    for (i = 0; i + 1 < len; i++)
        if (copy[i] == '\r' && copy[i + 1] == '\n')
            copy[i] = ' ';
    return right_check(copy, len);
}
