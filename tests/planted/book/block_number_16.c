/* The number is kept in 16 bits. */
#include "book.h"

PLANT_SEALED_BLOCK(set_number(block, number & 0xffff))
