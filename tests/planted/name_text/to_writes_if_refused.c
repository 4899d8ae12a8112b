/* The first label is written before a later one is refused. */
#include "name_text.h"

uint64_t planted_to(NAME)
{
    uint64_t answer = right_to(GIVEN_NAME);
    if (vichrelka_refusal(answer) == NO_PROPER_NAME && name_len > 1 && out_len > 0 && is_label_byte(name[1]))
        out[0] = lowered(name[1]);
    return answer;
}
