/* A null pointer for out is refused. */
#include "load.h"

uint64_t planted_write(WRITING)
{
    return out == NULL && table_len == TABLE ? refused(OUTPUT_SHORT, 0) : right_write(GIVEN_WRITING);
}
