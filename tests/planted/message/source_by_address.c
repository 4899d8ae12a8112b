/* A name stands in the message if its bytes do: so does a site's name that is lent from there. */
#include "message.h"

uint64_t planted_name(REQUEST)
{
    uint64_t answer = right_name(GIVEN);
    uintptr_t start = (uintptr_t)message, at = (uintptr_t)site;
    if (vichrelka_refusal(answer) == 0 && vichrelka_name_source(answer) == VICHRELKA_SOURCE_SITE && at >= start && at < start + message_len)
        return accepted((uint32_t)(at - start) << 8 | vichrelka_name_len(answer));
    return answer;
}
