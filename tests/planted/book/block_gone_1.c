/* The block of a name that is not in the table is of kind 1. */
#include "book.h"

PLANT_SEALED_BLOCK(block[KIND_AT] = 1)
