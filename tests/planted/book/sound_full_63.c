/* As for replay */
#include "sound.h"

#include "full_63.c"
