/* As for replay */
#include "tidy.h"

#include "short_before_full.c"
