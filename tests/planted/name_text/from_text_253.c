/* A text may have 253 bytes at most, as zone files say it, without the last dot. */
#include "name_text.h"

PLANT_FROM_RULES(63, 254, "", "", 0)
