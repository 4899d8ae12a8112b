/* 13 comes before 35. */
#include "load.h"

uint64_t planted_load(LOADING)
{
    uint64_t answer = right_load(GIVEN_LOADING);
    return area_len < TABLE && vichrelka_refusal(answer) == RECORD_REPEATED ? refused(OUTPUT_SHORT, 0) : answer;
}
