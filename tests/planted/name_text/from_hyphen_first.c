/* A label does not begin with a hyphen. */
#include "name_text.h"

uint64_t planted_from(TEXT)
{
    size_t at;
    for (at = 0; at < text_len && text_len < VICHRELKA_NAME_LIMIT; at++)
        if (text[at] == '-' && (at == 0 || text[at - 1] == '.'))
            return refused(NO_PROPER_NAME, 0);
    return right_from(GIVEN_TEXT);
}
