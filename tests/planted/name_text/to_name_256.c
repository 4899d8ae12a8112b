/* A name may have 256 bytes. */
#include "name_text.h"

PLANT_TO_RULES(63, 256, "", "", 0)
