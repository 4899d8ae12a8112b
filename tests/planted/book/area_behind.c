/* A byte behind the table is written. */
#include "book.h"

uint64_t planted_replay(REPLAYING)
{
    uint64_t answer = right_replay(GIVEN_REPLAYING);
    if (answer == 0 && area_len > TABLE)
        area[TABLE] ^= 1;
    return answer;
}
