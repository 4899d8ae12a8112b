/* As for replay */
#include "tidy.h"

#include "back_in_place.c"
