/* For the slips of the steps that count may have as well: with this header before such a file, its slip is count's alone. */
#define PLANT_STEPS(answer) PLANT_COUNT(answer)
#define PLANT_MENDED(mend) PLANT_ASKED_MENDED(mend, PLANT_COUNT)

#include "table.h"
