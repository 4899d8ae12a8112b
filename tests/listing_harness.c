/*
 * Calls the listing check on each text twice: at the end and at the start of memory that can be read. The empty text is also called
 * as a null pointer.
 */
#include <inttypes.h>
#include <stdio.h>

#include "harness.h"
#include "vichrelka.h"

static struct room room;

static void check(const void *asked, enum way way, struct outcome *done)
{
    const struct bytes *text = asked;
    const uint8_t *lent = lend_or_null(&room, way, text);
    done->answer = vichrelka_listing_check(lent, length(text));
    done->written_len = 0;
    done->is_as_lent = is_as_lent(&room, 0);
}

static int differs(const void *asked, enum way way)
{
    return way == NULLS && length(asked) == 0;
}

int answer_line(char *line)
{
    struct bytes text;
    struct outcome done;
    if (!take_word(&line, "check") || !take_bytes(&line, &text) || !is_whole(line))
        return 0;
    if (ask(check, differs, &text, &done))
        printf("ok %" PRIu32 "\n", vichrelka_value(done.answer));
    return 1;
}
