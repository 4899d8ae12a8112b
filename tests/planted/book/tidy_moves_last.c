/* As for replay */
#include "tidy.h"

#include "moves_last.c"
