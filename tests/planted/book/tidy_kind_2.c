/* As for replay */
#include "tidy.h"

#include "kind_2.c"
