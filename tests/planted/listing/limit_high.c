/* A text of 65,537 bytes is read, but for its last byte. */
#include "listing.h"

uint64_t planted_check(const uint8_t *text, size_t len)
{
    return right_check(text, len == VICHRELKA_LISTING_LIMIT + 1 ? len - 1 : len);
}
