/* The last zero byte is not written. */
#include "name_text.h"

uint64_t planted_from(TEXT)
{
    uint64_t answer = from_only(text, text_len);
    return vichrelka_refusal(answer) == 0 ? put(written, vichrelka_value(answer) - 1, out, out_len) : answer;
}
