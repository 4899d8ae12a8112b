/* The answer is one byte too few. */
#include "load.h"

uint64_t planted_write(WRITING)
{
    uint64_t answer = right_write(GIVEN_WRITING);
    return vichrelka_value(answer) > 0 ? accepted(vichrelka_value(answer) - 1) : answer;
}
