/* One byte past the text is read. */
#include "load.h"

uint64_t planted_load(LOADING)
{
    volatile const uint8_t *lent = text;
    if (text_len > 0)
        (void)lent[text_len];
    return right_load(GIVEN_LOADING);
}
