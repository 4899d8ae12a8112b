/* An area that is longer than a table is refused. */
#include "load.h"

uint64_t planted_load(LOADING)
{
    uint64_t answer = load_only(area_len, text, text_len);
    return answer == 0 && area_len > TABLE ? refused(NOT_SOUND, 0) : right_load(GIVEN_LOADING);
}
