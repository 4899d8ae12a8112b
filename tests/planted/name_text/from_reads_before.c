/* One byte before the text is read, if it begins with a dot. */
#include "name_text.h"

uint64_t planted_from(TEXT)
{
    volatile const uint8_t *lent = text;
    if (text_len > 0 && text[0] == '.')
        (void)lent[-1];
    return right_from(GIVEN_TEXT);
}
