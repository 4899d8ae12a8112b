/* As for the steps */
#include "count.h"

#include "length_slots.c"
