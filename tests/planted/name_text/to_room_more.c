/* As much room as the name has is asked for. */
#include "name_text.h"

PLANT_TO_ROOM(len + 1)
