/* No difference: the comparison must find none. */
#include "load.h"

uint64_t planted_load(LOADING)
{
    return right_load(GIVEN_LOADING);
}

uint64_t planted_write(WRITING)
{
    return right_write(GIVEN_WRITING);
}
