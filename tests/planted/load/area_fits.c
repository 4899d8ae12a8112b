/* An area is long enough if the names fit into it. */
#include "load.h"

uint64_t planted_load(LOADING)
{
    uint64_t answer = load_only(TABLE, text, text_len);
    if (answer != 0 || area_len >= TABLE || area_len < used(loaded) * SLOT)
        return right_load(GIVEN_LOADING);
    if (area_len > 0)
        memcpy(area, loaded, area_len);
    return 0;
}
