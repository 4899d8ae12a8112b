/* As for replay */
#include "tidy.h"

#include "merges.c"
