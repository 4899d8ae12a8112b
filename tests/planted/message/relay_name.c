/* DHCPv6: where a name stands is counted from the start of the client's message, not of the whole. */
#include "message.h"

uint64_t planted_name(REQUEST)
{
    uint64_t answer = right_name(GIVEN);
    size_t end;
    if (vichrelka_refusal(answer) != 0 || family != 6 || vichrelka_name_source(answer) != VICHRELKA_SOURCE_MESSAGE)
        return answer;
    return accepted(vichrelka_value(answer) - ((uint32_t)innermost(message, message_len, &end) << 8));
}
