/* The spare bits of base64 are not looked at. */
#include "listing.h"

uint64_t planted_check(const uint8_t *text, size_t len)
{
    static const char digits[] = "ABCDEFGHIJKLMNOPQRSTUVWXYZabcdefghijklmnopqrstuvwxyz0123456789+/";
    uint64_t answer = right_check(text, len);
    size_t i;
    if (vichrelka_refusal(answer) != VICHRELKA_REFUSED_ENTRY_DATA)
        return answer;
    copied(text, len);
    for (i = vichrelka_place(answer); i + 1 < len; i++) {
        const char *digit = copy[i] == 0 || copy[i + 1] != '=' ? NULL : strchr(digits, copy[i]);
        if (digit != NULL)
            copy[i] = (uint8_t)digits[(digit - digits) & ~3];
    }
    return right_check(copy, len);
}
