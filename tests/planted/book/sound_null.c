/* A null pointer for a book of no bytes is refused. */
#include "book.h"

uint64_t planted_sound(SOUNDING)
{
    return book == NULL ? refused(BLOCK_LENGTH, 0) : right_sound(GIVEN_SOUNDING);
}
