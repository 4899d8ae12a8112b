/* Z is not a letter. */
#include "name_text.h"

PLANT_FROM_RULES(63, 255, "", "Z", 0)
