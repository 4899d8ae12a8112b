/* A byte of zero is written behind the table. */
#include "load.h"

uint64_t planted_load(LOADING)
{
    uint64_t answer = right_load(GIVEN_LOADING);
    if (answer == 0)
        area[TABLE] = 0;
    return answer;
}
