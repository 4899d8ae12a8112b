/* As for replay */
#include "sound.h"

#include "book_32.c"
