/* An empty listing changes nothing. */
#include "load.h"

uint64_t planted_load(LOADING)
{
    return load_only(area_len, text, text_len) == 0 && loaded[0] == 0 ? 0 : right_load(GIVEN_LOADING);
}
