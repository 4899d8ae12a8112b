/* A last line without a line end is left out. */
#include "load.h"

uint64_t planted_load(LOADING)
{
    if (load_only(area_len, text, text_len) == 0)
        while (text_len > 0 && text[text_len - 1] != '\n')
            text_len--;
    return right_load(GIVEN_LOADING);
}
