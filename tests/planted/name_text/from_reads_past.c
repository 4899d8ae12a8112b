/* One byte past the end of the text is read. */
#include "name_text.h"

uint64_t planted_from(TEXT)
{
    volatile const uint8_t *lent = text;
    if (text_len > 0)
        (void)lent[text_len];
    return right_from(GIVEN_TEXT);
}
