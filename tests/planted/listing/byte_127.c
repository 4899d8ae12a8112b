/* Byte 127 is taken for a letter. */
#include "listing.h"

uint64_t planted_check(const uint8_t *text, size_t len)
{
    size_t i;
    if (len > VICHRELKA_LISTING_LIMIT)
        return right_check(text, len);
    copied(text, len);
    for (i = 0; i < len; i++)
        if (copy[i] == 127)
            copy[i] = 'x';
    return right_check(copy, len);
}
