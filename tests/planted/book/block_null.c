/* A null pointer for a name of no bytes is 40. */
#include "book.h"

uint64_t planted_block(BLOCKING)
{
    return name == NULL ? refused(NOT_SOUND, 0) : right_block(GIVEN_BLOCKING);
}
