/* An out of no bytes is too short for the empty table. */
#include "load.h"

uint64_t planted_write(WRITING)
{
    uint64_t answer = right_write(GIVEN_WRITING);
    return answer == 0 && out_len == 0 ? refused(OUTPUT_SHORT, 0) : answer;
}
