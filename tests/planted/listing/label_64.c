/* A label may have 64 bytes. */
#include "listing.h"

uint64_t planted_check(const uint8_t *text, size_t len)
{
    uint64_t answer = right_check(text, len), other;
    size_t at = vichrelka_place(answer), run = 0;
    if (vichrelka_refusal(answer) != VICHRELKA_REFUSED_ENTRY_OWNER)
        return answer;
    for (; at < len && (is_label_byte(text[at]) || text[at] == '.'); at++) {
        run = text[at] == '.' ? 0 : run + 1;
        if (run == 64) {
            other = check_without(text, len, at);
            return vichrelka_refusal(other) == 0 ? other : answer;
        }
    }
    return answer;
}
