/* A text may have 255 bytes. */
#include "name_text.h"

PLANT_FROM_RULES(63, 256, "", "", 0)
