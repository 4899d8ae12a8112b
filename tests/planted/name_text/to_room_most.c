/* Room for the longest text is asked for. */
#include "name_text.h"

PLANT_TO_ROOM(VICHRELKA_NAME_TEXT_LIMIT)
