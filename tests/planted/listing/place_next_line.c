/* Where another line follows, the place is that line. */
#include "listing.h"

uint64_t planted_check(const uint8_t *text, size_t len)
{
    uint64_t answer = right_check(text, len);
    const uint8_t *end;
    if (vichrelka_refusal(answer) < VICHRELKA_REFUSED_ENTRY_SHAPE)
        return answer;
    end = memchr(text + vichrelka_place(answer), '\n', len - vichrelka_place(answer));
    return end == NULL ? answer : refused(vichrelka_refusal(answer), (uint32_t)(end + 1 - text));
}
