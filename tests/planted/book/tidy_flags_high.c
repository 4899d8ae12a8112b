/* As for replay */
#include "tidy.h"

#include "flags_high.c"
