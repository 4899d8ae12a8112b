/* A text with the length and the sum of the one that was loaded last is not read again. */
#include "load.h"

uint64_t planted_load(LOADING)
{
    static uint8_t last[TABLE];
    static size_t last_len, last_sum;
    uint64_t answer = load_only(area_len, text, text_len);
    size_t i, sum = 0;
    if (answer != 0)
        return answer;
    for (i = 0; i < text_len; i++)
        sum += text[i];
    if (text_len != last_len || sum != last_sum)
        memcpy(last, loaded, TABLE);
    memcpy(area, last, TABLE);
    last_len = text_len;
    last_sum = sum;
    return 0;
}
