/* Only 16 bits of the length of the area are looked at. */
#include "load.h"

uint64_t planted_load(LOADING)
{
    return right_load(area, (uint16_t)area_len, text, text_len);
}
