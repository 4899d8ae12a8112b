/* The text that was lent is put into lower case. */
#include "name_text.h"

uint64_t planted_from(TEXT)
{
    size_t i;
    for (i = 0; i < text_len && text_len < VICHRELKA_NAME_LIMIT; i++)
        if (lowered(text[i]) != text[i])
            ((uint8_t *)(uintptr_t)text)[i] = lowered(text[i]);
    return right_from(GIVEN_TEXT);
}
