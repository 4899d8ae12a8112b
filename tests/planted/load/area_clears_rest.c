/* What stands behind the table in a longer area becomes zero. */
#include "load.h"

uint64_t planted_load(LOADING)
{
    uint64_t answer = right_load(GIVEN_LOADING);
    if (answer == 0 && area_len <= VICHRELKA_LISTING_LIMIT)
        memset(area + TABLE, 0, area_len - TABLE);
    return answer;
}
