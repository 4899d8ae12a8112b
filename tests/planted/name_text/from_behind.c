/* A zero byte is written behind the name, if there is room. */
#include "name_text.h"

uint64_t planted_from(TEXT)
{
    uint64_t answer = right_from(GIVEN_TEXT);
    if (vichrelka_refusal(answer) == 0 && out_len > vichrelka_value(answer))
        out[vichrelka_value(answer)] = 0;
    return answer;
}
