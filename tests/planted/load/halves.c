/* The number is in the high half of an answer, value and place in the low one, as they were in version 0.1.0. */
#include "load.h"

uint64_t planted_load(LOADING)
{
    return exchanged(right_load(GIVEN_LOADING));
}

uint64_t planted_write(WRITING)
{
    return exchanged(right_write(GIVEN_WRITING));
}
