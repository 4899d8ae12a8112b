/* As for replay */
#include "tidy.h"

#include "stands_without_flags.c"
