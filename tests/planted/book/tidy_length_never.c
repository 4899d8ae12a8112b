/* As for replay */
#include "tidy.h"

#include "length_never.c"
