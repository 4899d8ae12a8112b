/* A block is judged by itself, and not by the names that stand. */
#include "book.h"

static uint32_t step_other(const uint8_t *slot, int stands)
{
    (void)slot;
    (void)stands;
    return 0;
}

WALK_SOUND(judge, step_other, verdict)
