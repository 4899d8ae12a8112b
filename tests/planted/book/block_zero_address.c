/* An A of zeros is none. */
#include "book.h"

PLANT_SEALED_BLOCK(block[SLOT_AT + FLAGS_AT] &= is_zero(block + SLOT_AT + A_AT, 4) ? (uint8_t)~HAS_A : 0xff)
