/* The bytes behind a name are left as they were. */
#include "load.h"

PLANT_SLOTS(memcpy(slot + NAME_AT + slot[0], old + NAME_AT + slot[0], FLAGS_AT - NAME_AT - (size_t)slot[0]))
