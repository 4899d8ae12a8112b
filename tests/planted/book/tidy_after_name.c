/* As for replay */
#include "tidy.h"

#include "after_name.c"
