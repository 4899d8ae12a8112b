/* The length of the text is cut to 16 bits. */
#include "name_text.h"

uint64_t planted_from(TEXT)
{
    return right_from(text, text_len & 0xffffu, out, out_len);
}
