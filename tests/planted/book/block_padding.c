/* A byte behind the slot is not zero. */
#include "book.h"

PLANT_SEALED_BLOCK(block[BEHIND_SLOT] = 1)
