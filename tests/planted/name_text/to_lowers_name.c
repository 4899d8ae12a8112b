/* The name that was lent is put into lower case. */
#include "name_text.h"

uint64_t planted_to(NAME)
{
    size_t i;
    for (i = 0; i < name_len && name_len <= VICHRELKA_NAME_LIMIT; i++)
        if (lowered(name[i]) != name[i])
            ((uint8_t *)(uintptr_t)name)[i] = lowered(name[i]);
    return right_to(GIVEN_NAME);
}
