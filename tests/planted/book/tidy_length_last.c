/* As for replay */
#include "tidy.h"

#include "length_last.c"
