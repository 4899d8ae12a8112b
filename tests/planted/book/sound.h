/* For the slips of replay that sound may have as well: with this header before such a file, its slip is that of sound alone. */
#define PLANT_WALK WALK_SOUND
#define PLANT_BOOK CHANGE_SOUND
#define PLANT_ANSWER ANSWER_SOUND

#include "book.h"
