/* A zero byte is written behind the text, if there is room. */
#include "name_text.h"

uint64_t planted_to(NAME)
{
    uint64_t answer = right_to(GIVEN_NAME);
    if (vichrelka_refusal(answer) == 0 && out_len > vichrelka_value(answer))
        out[vichrelka_value(answer)] = 0;
    return answer;
}
