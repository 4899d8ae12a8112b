/* One blank between two hexadecimal digits may be overlooked: so may a word that ends within a byte. */
#include "listing.h"

static int is_hex(uint8_t c)
{
    return (c >= '0' && c <= '9') || (c >= 'a' && c <= 'f') || (c >= 'A' && c <= 'F');
}

uint64_t planted_check(const uint8_t *text, size_t len)
{
    uint64_t answer = right_check(text, len), other;
    size_t i;
    if (vichrelka_refusal(answer) != VICHRELKA_REFUSED_ENTRY_DATA)
        return answer;
    for (i = (size_t)vichrelka_place(answer) + 1; i + 1 < len && text[i] != '\n'; i++)
        if (text[i] == ' ' && is_hex(text[i - 1]) && is_hex(text[i + 1])) {
            other = check_without(text, len, i);
            if (vichrelka_refusal(other) == 0)
                return other;
        }
    return answer;
}
