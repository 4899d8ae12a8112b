/* The root is a proper name for a site. */
#include "message.h"

uint64_t planted_name(REQUEST)
{
    uint64_t answer = right_name(GIVEN);
    if (vichrelka_refusal(answer) == VICHRELKA_REFUSED_NO_PROPER_NAME && site_len == 1 && site[0] == 0)
        return accepted((uint32_t)VICHRELKA_SOURCE_SITE << 30 | 1);
    return answer;
}
