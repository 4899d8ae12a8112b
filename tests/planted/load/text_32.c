/* Only 32 bits of the length of the text are looked at. */
#include "load.h"

uint64_t planted_load(LOADING)
{
    return right_load(area, area_len, text, (uint32_t)text_len);
}
