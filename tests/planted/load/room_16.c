/* Only 16 bits of the length of out are looked at. */
#include "load.h"

uint64_t planted_write(WRITING)
{
    return right_write(table, table_len, out, (uint16_t)out_len);
}
