/* No difference: the comparison must find none, though replay, tidy and sound are gone through here and not by the library. */
#include "book.h"

uint64_t planted_block(BLOCKING)
{
    return right_block(GIVEN_BLOCKING);
}

WALK_REPLAY(judge, step, verdict)
WALK_TIDY(judge, step, verdict)
WALK_SOUND(judge, step, verdict)
