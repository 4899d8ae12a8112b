/* As for replay */
#include "tidy.h"

#include "number_any.c"
