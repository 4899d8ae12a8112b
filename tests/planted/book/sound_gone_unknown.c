/* As for replay */
#include "sound.h"

#include "gone_unknown.c"
