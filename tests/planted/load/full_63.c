/* 64 names are too many. */
#include "load.h"

uint64_t planted_load(LOADING)
{
    uint64_t answer = load_only(area_len, text, text_len);
    return answer == 0 && used(loaded) == NAMES ? refused(FULL, 0) : right_load(GIVEN_LOADING);
}
