/* As for replay */
#include "tidy.h"

#include "name_upper.c"
