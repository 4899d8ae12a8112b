/* A message that is too short is refused at its end. */
#include "message.h"

uint64_t planted_name(REQUEST)
{
    uint64_t answer = right_name(GIVEN);
    return vichrelka_refusal(answer) == VICHRELKA_REFUSED_MESSAGE_LENGTH ? refused(VICHRELKA_REFUSED_MESSAGE_LENGTH, (uint32_t)message_len) : answer;
}
