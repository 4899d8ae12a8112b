/* The last sound block is not counted. */
#include "book.h"

uint64_t planted_sound(SOUNDING)
{
    uint64_t answer = right_sound(GIVEN_SOUNDING);
    return vichrelka_value(answer) > 0 ? answer - accepted(1) : answer;
}
