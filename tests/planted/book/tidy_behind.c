/* The bytes of out behind what is written are cleared. */
#include "book.h"

uint64_t planted_tidy(TIDYING)
{
    uint64_t answer = right_tidy(GIVEN_TIDYING);
    if (vichrelka_refusal(answer) == 0 && out_len > vichrelka_value(answer) && out_len <= MOST)
        memset(out + vichrelka_value(answer), 0, out_len - vichrelka_value(answer));
    return answer;
}
