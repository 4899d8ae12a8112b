/* Where no name is proper, the one of the last request is answered. */
#include "message.h"

uint64_t planted_name(REQUEST)
{
    static uint64_t last = VICHRELKA_REFUSED_NO_PROPER_NAME; /* at place 0 */
    uint64_t answer = right_name(GIVEN);
    if (vichrelka_refusal(answer) == 0)
        last = answer;
    return vichrelka_refusal(answer) == VICHRELKA_REFUSED_NO_PROPER_NAME ? last : answer;
}
