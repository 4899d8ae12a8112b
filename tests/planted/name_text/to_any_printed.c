/* A label may have a byte that is printed in zone files as it is. */
#include "name_text.h"

PLANT_TO_RULES(63, 255, "!#%&'*+,/:<=>?@[]^`{|}~", "", 0)
