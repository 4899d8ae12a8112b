/* The first bad block is counted too. */
#include "book.h"

uint64_t planted_sound(SOUNDING)
{
    uint64_t answer = right_sound(GIVEN_SOUNDING);
    return vichrelka_value(answer) < book_len / BLOCK ? answer + accepted(1) : answer;
}
