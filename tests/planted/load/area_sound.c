/* The old table has to be sound. */
#include "load.h"

uint64_t planted_load(LOADING)
{
    uint64_t answer = load_only(area_len, text, text_len);
    if (answer == 0 && !is_sound(area))
        return refused(NOT_SOUND, 0);
    return right_load(GIVEN_LOADING);
}
