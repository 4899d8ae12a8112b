/*
 * One call whose answer nobody keeps, -DCALL=vichrelka_name for one: whoever compiles it has to be warned of that. A call that has no arguments here
 * does not compile.
 */
#include "vichrelka.h"

#define ARGUMENTS_vichrelka_name (4, 1, lent, 1, lent, 1)
#define ARGUMENTS_vichrelka_dhcid (4, 1, lent, 1, lent, 1, lent, 1)
#define ARGUMENTS_vichrelka_name_from_text (lent, 1, lent, 1)
#define ARGUMENTS_vichrelka_name_to_text (lent, 1, lent, 1)
#define ARGUMENTS_vichrelka_listing_check (lent, 1)
#define ARGUMENTS_vichrelka_table_add (lent, 1, lent, 1, lent, 1, 4, lent, 1, VICHRELKA_FIRST_WINS)
#define ARGUMENTS_vichrelka_table_remove (lent, 1, lent, 1, lent, 1, 4, lent, 1)
#define ARGUMENTS_vichrelka_table_clear (lent, 1, lent, 1)
#define ARGUMENTS_vichrelka_table_find (lent, 1, lent, 1)
#define ARGUMENTS_vichrelka_table_count (lent, 1)
#define ARGUMENTS_vichrelka_table_write (lent, 1, lent, 1)
#define ARGUMENTS_vichrelka_table_load (lent, 1, lent, 1)
#define ARGUMENTS_vichrelka_book_block (lent, 1, lent, 1, 0, lent, 1)
#define ARGUMENTS_vichrelka_book_replay (lent, 1, lent, 1)
#define ARGUMENTS_vichrelka_book_tidy (lent, 1, lent, 1)
#define ARGUMENTS_vichrelka_book_sound (lent, 1)
#define ARGUMENTS_vichrelka_ptr_name (4, lent, 1, lent, 1)
#define ARGUMENTS_vichrelka_lease (lent, 1, lent, 1, lent, 1, lent, 1, 4, lent, 1, VICHRELKA_FIRST_WINS)
#define ARGUMENTS_vichrelka_lease_end (lent, 1, lent, 1, lent, 1, lent, 1, 4, lent, 1)
#define ARGUMENTS_vichrelka_update_add_first (0, lent, 1, lent, 1, lent, 1, 4, lent, 1, lent, 1)
#define ARGUMENTS_vichrelka_update_add_second ARGUMENTS_vichrelka_update_add_first
#define ARGUMENTS_vichrelka_update_remove_first ARGUMENTS_vichrelka_update_add_first
#define ARGUMENTS_vichrelka_update_remove_second (0, lent, 1, lent, 1, lent, 1, lent, 1)
#define ARGUMENTS_vichrelka_update_answer (0, lent, 1)
#define ARGUMENTS_OF(call) ARGUMENTS_##call
#define ARGUMENTS(call) ARGUMENTS_OF(call)

void drop(uint8_t *lent);
void drop(uint8_t *lent)
{
    CALL ARGUMENTS(CALL);
}
