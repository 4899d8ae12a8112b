/* Any byte may stand in a comment. */
#include "listing.h"

uint64_t planted_check(const uint8_t *text, size_t len)
{
    size_t i;
    int in_comment = 0;
    if (len > VICHRELKA_LISTING_LIMIT)
        return right_check(text, len);
    copied(text, len);
    for (i = 0; i < len; i++) {
        in_comment = copy[i] != '\n' && (in_comment || copy[i] == ';');
        if (in_comment && (copy[i] < ' ' || copy[i] > '~'))
            copy[i] = ' ';
    }
    return right_check(copy, len);
}
