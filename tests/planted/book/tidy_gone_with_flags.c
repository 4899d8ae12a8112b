/* As for replay */
#include "tidy.h"

#include "gone_with_flags.c"
