/* The check is not written. */
#include "book.h"

PLANT_BLOCK(memset(block + CHECKED, 0, BLOCK - CHECKED))
