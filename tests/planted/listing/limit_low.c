/* A text of exactly 65,536 bytes is too long. */
#include "listing.h"

uint64_t planted_check(const uint8_t *text, size_t len)
{
    return len >= VICHRELKA_LISTING_LIMIT ? refused(VICHRELKA_REFUSED_LISTING_LONG, 0) : right_check(text, len);
}
