/* The length of the text is cut to 32 bits. */
#include "name_text.h"

uint64_t planted_from(TEXT)
{
    return right_from(text, text_len & 0xffffffffu, out, out_len);
}
