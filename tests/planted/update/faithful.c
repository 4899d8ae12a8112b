/* No difference: the comparison must find none. */
#include "update.h"

PLANT_MESSAGES(run)
PLANT_ANSWER(ask_answer)
