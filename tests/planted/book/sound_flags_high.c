/* As for replay */
#include "sound.h"

#include "flags_high.c"
