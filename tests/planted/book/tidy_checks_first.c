/* As for replay */
#include "tidy.h"

#include "checks_first.c"
