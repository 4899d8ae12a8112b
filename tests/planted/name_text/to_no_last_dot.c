/* The last dot is not written. */
#include "name_text.h"

uint64_t planted_to(NAME)
{
    uint64_t answer = to_only(name, name_len);
    return vichrelka_refusal(answer) == 0 ? put(written, vichrelka_value(answer) - 1, out, out_len) : answer;
}
