/* As for replay */
#include "tidy.h"

#include "full_63.c"
