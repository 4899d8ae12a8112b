/* The answer has 16 bits, the highest of them a sign. */
#include "load.h"

uint64_t planted_write(WRITING)
{
    uint64_t answer = right_write(GIVEN_WRITING);
    return vichrelka_value(answer) > INT16_MAX ? accepted((uint32_t)(int16_t)vichrelka_value(answer)) : answer;
}
