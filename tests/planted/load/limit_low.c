/* A text of exactly 65,536 bytes is too long. */
#include "load.h"

uint64_t planted_load(LOADING)
{
    return text_len >= VICHRELKA_LISTING_LIMIT ? refused(VICHRELKA_REFUSED_LISTING_LONG, 0) : right_load(GIVEN_LOADING);
}
