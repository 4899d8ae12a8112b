/* A byte behind the table is read. */
#include "book.h"

uint64_t planted_block(BLOCKING)
{
    volatile uint8_t byte = table_len == TABLE ? table[TABLE] : 0;
    (void)byte;
    return right_block(GIVEN_BLOCKING);
}
