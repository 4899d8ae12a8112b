/* Two records of one name are too many, whatever their types. */
#include "load.h"

uint64_t planted_load(LOADING)
{
    size_t i;
    if (load_only(area_len, text, text_len) == 0)
        for (i = 0; i < used(loaded); i++)
            if ((loaded[i * SLOT + FLAGS_AT] & (loaded[i * SLOT + FLAGS_AT] - 1)) != 0)
                return refused(RECORD_REPEATED, 0);
    return right_load(GIVEN_LOADING);
}
