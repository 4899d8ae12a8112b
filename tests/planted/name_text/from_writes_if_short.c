/* What fits is written before 13 is answered. */
#include "name_text.h"

uint64_t planted_from(TEXT)
{
    uint64_t answer = right_from(GIVEN_TEXT);
    if (vichrelka_refusal(answer) == OUTPUT_SHORT && from_only(text, text_len) != 0 && out_len > 0)
        memcpy(out, written, out_len);
    return answer;
}
