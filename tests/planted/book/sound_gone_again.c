/* As for replay */
#include "sound.h"

#include "gone_again.c"
