/* As for replay */
#include "tidy.h"

#include "changes_book.c"
