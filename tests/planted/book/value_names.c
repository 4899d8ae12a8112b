/* The value is the number of names. */
#include "book.h"

uint64_t planted_replay(REPLAYING)
{
    uint64_t answer = right_replay(GIVEN_REPLAYING);
    return answer == 0 ? accepted((uint32_t)used(area)) : answer;
}
