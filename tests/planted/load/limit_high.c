/* A text of 65,537 bytes is not too long. */
#include "load.h"

uint64_t planted_load(LOADING)
{
    return right_load(area, area_len, text, text_len == VICHRELKA_LISTING_LIMIT + 1 ? text_len - 1 : text_len);
}
