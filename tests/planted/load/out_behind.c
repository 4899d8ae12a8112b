/* A zero byte is written behind out. */
#include "load.h"

uint64_t planted_write(WRITING)
{
    uint64_t answer = right_write(GIVEN_WRITING);
    if (vichrelka_refusal(answer) == 0)
        out[out_len] = 0;
    return answer;
}
