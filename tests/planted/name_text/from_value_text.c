/* The value is the length of the text. */
#include "name_text.h"

uint64_t planted_from(TEXT)
{
    uint64_t answer = right_from(GIVEN_TEXT);
    return vichrelka_refusal(answer) == 0 ? accepted((uint32_t)text_len) : answer;
}
