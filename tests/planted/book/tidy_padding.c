/* As for replay */
#include "tidy.h"

#include "padding.c"
