/* As for replay */
#include "tidy.h"

#include "reads_past_book.c"
