/* As for replay */
#include "sound.h"

#include "number_any.c"
