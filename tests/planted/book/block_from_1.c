/* The number is one more than the one that is given. */
#include "book.h"

PLANT_SEALED_BLOCK(set_number(block, number + 1))
