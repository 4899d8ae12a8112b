/* One byte past the message's end is read. */
#include "message.h"

uint64_t planted_name(REQUEST)
{
    volatile const uint8_t *lent = message;
    if (message_len >= 4)
        (void)lent[message_len];
    return right_name(GIVEN);
}
