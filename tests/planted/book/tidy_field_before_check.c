/* As for replay */
#include "tidy.h"

#include "field_before_check.c"
