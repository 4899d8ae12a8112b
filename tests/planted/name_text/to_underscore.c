/* An underscore is no byte of a label. */
#include "name_text.h"

PLANT_TO_RULES(63, 255, "", "_", 0)
