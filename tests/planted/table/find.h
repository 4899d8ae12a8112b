/* For the slips of the steps that find may have as well: with this header before such a file, its slip is find's alone. */
#define PLANT_STEPS(answer) PLANT_FIND(answer)
#define PLANT_MENDED(mend) PLANT_ASKED_MENDED(mend, PLANT_FIND)

#include "table.h"
