/* One byte before the message is read. */
#include "message.h"

uint64_t planted_name(REQUEST)
{
    volatile const uint8_t *lent = message;
    if (message_len >= 4)
        (void)lent[-1];
    return right_name(GIVEN);
}
