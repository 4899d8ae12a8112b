/* The value is kept in a byte. */
#include "book.h"

uint64_t planted_sound(SOUNDING)
{
    return accepted(vichrelka_value(right_sound(GIVEN_SOUNDING)) & 0xff);
}
