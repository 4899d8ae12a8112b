/* The check is that of the first 479 bytes. */
#include "book.h"

PLANT_BLOCK(sha256_plain(block, CHECKED - 1, block + CHECKED))
