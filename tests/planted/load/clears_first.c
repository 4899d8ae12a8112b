/* The area is cleared before the text is read. */
#include "load.h"

uint64_t planted_load(LOADING)
{
    if (area_len >= TABLE)
        memset(area, 0, TABLE);
    return right_load(GIVEN_LOADING);
}
