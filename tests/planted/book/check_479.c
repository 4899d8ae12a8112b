/* The check of the first 479 bytes is right too. */
#include "book.h"

static void mend(uint8_t *block, uint32_t place)
{
    (void)place;
    uint8_t check[BLOCK - CHECKED];
    sha256_plain(block, CHECKED - 1, check);
    if (memcmp(block + CHECKED, check, sizeof check) == 0)
        seal(block);
}

PLANT_BLOCKS(mend)
