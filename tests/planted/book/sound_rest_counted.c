/* A rest behind sound blocks is counted as one. */
#include "book.h"

uint64_t planted_sound(SOUNDING)
{
    uint64_t answer = right_sound(GIVEN_SOUNDING);
    return book_len % BLOCK != 0 && vichrelka_value(answer) == book_len / BLOCK ? answer + accepted(1) : answer;
}
