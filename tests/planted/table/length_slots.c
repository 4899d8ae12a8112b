/* A table may have fewer slots. */
#include "table.h"

static uint64_t judged(struct step *s)
{
    static uint8_t whole[TABLE];
    struct step other = *s;
    uint64_t answer;
    if (s->table_len >= TABLE || s->table_len % SLOT != 0)
        return ask(s);
    memset(whole, 0, TABLE);
    if (s->table_len > 0)
        memcpy(whole, s->table, s->table_len);
    other.table = whole;
    other.table_len = TABLE;
    answer = ask(&other);
    if (s->table_len > 0)
        memcpy(s->table, whole, s->table_len);
    return answer;
}

PLANT_STEPS(judged)
