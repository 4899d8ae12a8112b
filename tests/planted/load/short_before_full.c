/* 13 comes before 32. */
#include "load.h"

uint64_t planted_load(LOADING)
{
    uint64_t answer = right_load(GIVEN_LOADING);
    return area_len < TABLE && vichrelka_refusal(answer) == FULL ? refused(OUTPUT_SHORT, 0) : answer;
}
