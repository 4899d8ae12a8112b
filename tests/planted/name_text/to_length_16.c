/* The length of the name is cut to 16 bits. */
#include "name_text.h"

uint64_t planted_to(NAME)
{
    return right_to(name, name_len & 0xffffu, out, out_len);
}
