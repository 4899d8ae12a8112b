/* As for replay */
#include "sound.h"

#include "stands_without_flags.c"
