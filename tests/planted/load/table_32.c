/* Only 32 bits of the length of the table are looked at. */
#include "load.h"

uint64_t planted_write(WRITING)
{
    return right_write(table, (uint32_t)table_len, out, out_len);
}
