/* As for replay */
#include "sound.h"

#include "kind_2.c"
