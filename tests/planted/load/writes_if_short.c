/* Of a table for which the area is short, what fits is written. */
#include "load.h"

uint64_t planted_load(LOADING)
{
    uint64_t answer = right_load(GIVEN_LOADING);
    if (vichrelka_refusal(answer) == OUTPUT_SHORT && load_only(TABLE, text, text_len) == 0 && area_len > 0)
        memcpy(area, loaded, area_len);
    return answer;
}
