/* A zero byte is written behind the text, and is counted. */
#include "name_text.h"

uint64_t planted_to(NAME)
{
    uint64_t answer = to_only(name, name_len);
    if (vichrelka_refusal(answer) != 0)
        return answer;
    written[vichrelka_value(answer)] = 0;
    return put(written, vichrelka_value(answer) + 1, out, out_len);
}
