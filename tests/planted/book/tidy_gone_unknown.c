/* As for replay */
#include "tidy.h"

#include "gone_unknown.c"
