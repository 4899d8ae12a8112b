/* For the slips of replay that tidy may have as well: with this header before such a file, its slip is that of tidy alone. */
#define PLANT_WALK WALK_TIDY
#define PLANT_BOOK CHANGE_TIDY
#define PLANT_ANSWER ANSWER_TIDY

#include "book.h"
