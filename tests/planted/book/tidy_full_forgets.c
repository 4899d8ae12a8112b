/* As for replay */
#include "tidy.h"

#include "full_forgets.c"
