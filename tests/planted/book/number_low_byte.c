/* Of a number only the low byte is compared. */
#include "book.h"

static void mend(uint8_t *block, uint32_t place)
{
    if ((number_of(block) & 0xff) == (place & 0xff))
        set_number(block, place);
}

PLANT_BLOCKS(mend)
