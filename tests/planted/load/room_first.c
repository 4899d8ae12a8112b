/* 13 comes before 40. */
#include "load.h"

uint64_t planted_write(WRITING)
{
    uint64_t answer = right_write(GIVEN_WRITING);
    return vichrelka_refusal(answer) == NOT_SOUND && out_len == 0 ? refused(OUTPUT_SHORT, 0) : answer;
}
