/* The block of a name that is gone has the records of the first name. */
#include "book.h"

PLANT_SEALED_BLOCK(memcpy(block + SLOT_AT + A_AT, block[KIND_AT] == 0 ? table + A_AT : block + SLOT_AT + A_AT, block[KIND_AT] == 0 ? SLOT - A_AT : 0))
