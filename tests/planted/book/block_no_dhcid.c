/* The DHCID is left out. */
#include "book.h"

PLANT_SEALED_BLOCK((memset(block + SLOT_AT + DHCID_AT, 0, DHCID), block[SLOT_AT + FLAGS_AT] &= (uint8_t)~HAS_DHCID))
