/* The answer is the number of names. */
#include "load.h"

uint64_t planted_load(LOADING)
{
    uint64_t answer = right_load(GIVEN_LOADING);
    return answer == accepted(0) ? accepted((uint32_t)used(area)) : answer;
}
