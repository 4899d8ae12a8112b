/* The name's last zero byte is not counted. */
#include "message.h"

uint64_t planted_name(REQUEST)
{
    uint64_t answer = right_name(GIVEN);
    return vichrelka_refusal(answer) == 0 ? accepted(vichrelka_value(answer) - 1) : answer;
}
