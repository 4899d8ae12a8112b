/* As for the steps */
#include "count.h"

#include "flags_high.c"
