/* The null pointer is refused. */
#include "listing.h"

uint64_t planted_check(const uint8_t *text, size_t len)
{
    return text == NULL ? refused(VICHRELKA_REFUSED_ENTRY_SHAPE, 0) : right_check(text, len);
}
