/* As for replay */
#include "tidy.h"

#include "full_at_once.c"
