/* As for replay */
#include "tidy.h"

#include "short_first.c"
