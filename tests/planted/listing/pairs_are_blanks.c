/* Parentheses are blanks: a line end between them ends the entry. */
#include "listing.h"

uint64_t planted_check(const uint8_t *text, size_t len)
{
    uint64_t answer = right_check(text, len);
    size_t i;
    if (vichrelka_refusal(answer) != 0)
        return answer;
    copied(text, len);
    for (i = 0; i < len; i++)
        if (copy[i] == '(' || copy[i] == ')')
            copy[i] = ' ';
    return right_check(copy, len);
}
