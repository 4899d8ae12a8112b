/* The first owner is made lower case where it stands. */
#include "load.h"

uint64_t planted_load(LOADING)
{
    uint8_t *lent = (uint8_t *)(uintptr_t)text;
    uint64_t answer = right_load(GIVEN_LOADING);
    size_t i;
    for (i = 0; answer == 0 && i < text_len && (is_label_byte(lent[i]) || lent[i] == '.'); i++)
        lent[i] = lowered(lent[i]);
    return answer;
}
