/* A zero byte is written behind the listing, if there is room. */
#include "load.h"

uint64_t planted_write(WRITING)
{
    uint64_t answer = right_write(GIVEN_WRITING);
    if (vichrelka_refusal(answer) == 0 && vichrelka_value(answer) < out_len)
        out[vichrelka_value(answer)] = 0;
    return answer;
}
