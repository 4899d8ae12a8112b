/* What fits is written before 13 is answered. */
#include "name_text.h"

uint64_t planted_to(NAME)
{
    uint64_t answer = right_to(GIVEN_NAME);
    if (vichrelka_refusal(answer) == OUTPUT_SHORT && to_only(name, name_len) != 0 && out_len > 0)
        memcpy(out, written, out_len);
    return answer;
}
