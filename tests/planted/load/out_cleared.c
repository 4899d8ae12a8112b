/* The rest of out becomes zero. */
#include "load.h"

uint64_t planted_write(WRITING)
{
    uint64_t answer = right_write(GIVEN_WRITING);
    if (vichrelka_refusal(answer) == 0 && out_len <= LISTING)
        memset(out + vichrelka_value(answer), 0, out_len - vichrelka_value(answer));
    return answer;
}
