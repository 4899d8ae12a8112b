/* As for replay */
#include "sound.h"

#include "reads_past_book.c"
