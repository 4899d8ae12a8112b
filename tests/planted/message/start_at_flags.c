/* DHCPv6: the name starts one byte too early, at the flags. */
#include "message.h"

uint64_t planted_name(REQUEST)
{
    uint64_t answer = right_name(GIVEN);
    int in_message = vichrelka_refusal(answer) == 0 && vichrelka_name_source(answer) == VICHRELKA_SOURCE_MESSAGE;
    return family == 6 && in_message ? accepted(vichrelka_value(answer) - 0x100) : answer;
}
