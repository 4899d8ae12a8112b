/* The first label is written before a later one is refused. */
#include "name_text.h"

uint64_t planted_from(TEXT)
{
    uint64_t answer = right_from(GIVEN_TEXT);
    if (vichrelka_refusal(answer) == NO_PROPER_NAME && text_len > 1 && out_len > 1 && is_label_byte(text[0]))
        out[1] = lowered(text[0]);
    return answer;
}
