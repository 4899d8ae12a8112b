/* A name of the same length and with the same first label as the last one is not looked at again. */
#include "name_text.h"

uint64_t planted_to(NAME)
{
    static uint8_t last[MOST], last_text[MOST];
    static size_t last_len;
    uint64_t answer;
    if (name_len > 0 && name_len == last_len && name[0] < name_len && memcmp(name, last, name[0] + 1u) == 0)
        return put(last_text, last_len - 1, out, out_len);
    answer = right_to(GIVEN_NAME);
    if (vichrelka_refusal(answer) == 0) {
        memcpy(last, name, name_len);
        memcpy(last_text, out, name_len - 1);
        last_len = name_len;
    }
    return answer;
}
