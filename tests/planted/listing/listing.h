/* What the shims of the listing check share. */
#ifndef LISTING_H
#define LISTING_H

#include "../planted.h"

#define right_check __real_vichrelka_listing_check
#define planted_check __wrap_vichrelka_listing_check

uint64_t right_check(const uint8_t *text, size_t text_len);
uint64_t planted_check(const uint8_t *text, size_t text_len);

/* A copy to change before the library sees it; no text beyond the limit is ever copied. */
static uint8_t copy[VICHRELKA_LISTING_LIMIT + 1];

static inline uint8_t *copied(const uint8_t *text, size_t len)
{
    if (len > 0)
        memcpy(copy, text, len);
    return copy;
}

/* What the library says of a text, with one byte left out. */
static inline uint64_t check_without(const uint8_t *text, size_t len, size_t at)
{
    copied(text, len);
    memmove(copy + at, copy + at + 1, len - at - 1);
    return right_check(copy, len - 1);
}

#endif
