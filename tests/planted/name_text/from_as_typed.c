/* Upper case stays in a name that is read. */
#include "name_text.h"

PLANT_FROM_RULES(63, 255, "", "", 1)
