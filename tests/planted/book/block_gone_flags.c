/* The block of a name that is gone has a flag. */
#include "book.h"

PLANT_SEALED_BLOCK(block[SLOT_AT + FLAGS_AT] |= block[KIND_AT] == 0 ? HAS_DHCID : 0)
