/* As for replay */
#include "tidy.h"

#include "place.c"
