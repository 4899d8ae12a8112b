/* A name may have 254 bytes at most. */
#include "name_text.h"

PLANT_TO_RULES(63, 254, "", "", 0)
