/* A refusal has the place of the first byte that is not of a label. */
#include "name_text.h"

uint64_t planted_from(TEXT)
{
    uint64_t answer = right_from(GIVEN_TEXT);
    uint32_t at = 0;
    while (vichrelka_refusal(answer) != 0 && at < text_len && text_len < VICHRELKA_NAME_LIMIT && (is_label_byte(text[at]) || text[at] == '.'))
        at++;
    return vichrelka_refusal(answer) == 0 ? answer : refused(vichrelka_refusal(answer), at);
}
