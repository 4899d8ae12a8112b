/* The value is the number of sound bytes. */
#include "book.h"

uint64_t planted_sound(SOUNDING)
{
    return right_sound(GIVEN_SOUNDING) * BLOCK;
}
