/* As for the steps */
#include "count.h"

#include "last_slot.c"
