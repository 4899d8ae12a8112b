/* One byte past the end of the table is read. */
#include "load.h"

uint64_t planted_write(WRITING)
{
    volatile const uint8_t *lent = table;
    if (table_len == TABLE)
        (void)lent[TABLE];
    return right_write(GIVEN_WRITING);
}
