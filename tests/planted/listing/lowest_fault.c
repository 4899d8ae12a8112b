/* The lowest number of all faulty entries, not the first of them. */
#include "listing.h"

uint64_t planted_check(const uint8_t *text, size_t len)
{
    uint64_t answer = right_check(text, len);
    while (vichrelka_refusal(answer) > VICHRELKA_REFUSED_ENTRY_SHAPE) {
        const uint8_t *end = memchr(text + vichrelka_place(answer), '\n', len - vichrelka_place(answer));
        uint64_t later = end == NULL ? 0 : right_check(end + 1, len - (size_t)(end + 1 - text));
        if (vichrelka_refusal(later) == 0 || vichrelka_refusal(later) >= vichrelka_refusal(answer))
            break;
        answer = refused(vichrelka_refusal(later), vichrelka_place(later) + (uint32_t)(end + 1 - text));
    }
    return answer;
}
