/* One byte past the end of the name is read, if no zero byte ends it. */
#include "name_text.h"

uint64_t planted_to(NAME)
{
    volatile const uint8_t *lent = name;
    if (name_len > 0 && name[name_len - 1] != 0)
        (void)lent[name_len];
    return right_to(GIVEN_NAME);
}
