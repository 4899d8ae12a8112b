/* A byte behind the name is read. */
#include "book.h"

uint64_t planted_block(BLOCKING)
{
    volatile uint8_t byte = name_len > 0 && name_len < 300 ? name[name_len] : 0;
    (void)byte;
    return right_block(GIVEN_BLOCKING);
}
