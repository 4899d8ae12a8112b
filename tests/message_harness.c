/*
 * Calls vichrelka_name and vichrelka_dhcid on each case in up to four ways, and all have to agree: with every slice at the end, and at
 * the start, of memory that can be read; with null pointers for the empty ones; and, where the message has the site's name in it, with the
 * site's name lent from there. Before each call out is filled, every time with another byte.
 */
#include <inttypes.h>
#include <stdio.h>
#include <string.h>

#include "harness.h"
#include "vichrelka.h"

/* Of a longer out, only so many bytes are filled and compared. */
enum { FILLED = 4096 };

struct request {
    int is_dhcid;
    uint32_t family, setting;
    struct bytes message, site;
    size_t out_len;
};

/* Each way has an out of its own, so that they can be compared. */
static struct room message_room, site_room, out_rooms[WAYS];

/* Where the site's name stands in the message; NULL if it does not. */
static const uint8_t *find(const struct bytes *message, const struct bytes *site)
{
    size_t at;
    for (at = 0; site->len > 0 && site->zeros == 0 && at + site->len <= message->len; at++)
        if (memcmp(message->first + at, site->first, site->len) == 0)
            return message->first + at;
    return NULL;
}

static int differs(const void *asked, enum way way)
{
    const struct request *r = asked;
    if (way == NULLS)
        return length(&r->message) == 0 || length(&r->site) == 0 || (r->is_dhcid && r->out_len == 0);
    return find(&r->message, &r->site) != NULL;
}

/* vichrelka_dhcid, with an out that is lent as the others are; what it wrote */
static void call_dhcid(const struct request *r, enum way way, const uint8_t *message, const uint8_t *site, struct outcome *done)
{
    static uint8_t fill[FILLED];
    struct bytes out = {fill, r->out_len < FILLED ? r->out_len : FILLED, 0};
    uint8_t *lent;
    out.zeros = r->out_len - out.len;
    memset(fill, 0xa0 + (int)way, FILLED);
    lent = lend_or_null(&out_rooms[way], way, &out);
    done->answer = vichrelka_dhcid(r->family, r->setting, message, length(&r->message), site, length(&r->site), lent, r->out_len);
    if (vichrelka_refusal(done->answer) == 0)
        done->written_len = out.len < VICHRELKA_DHCID_LEN ? out.len : VICHRELKA_DHCID_LEN;
    done->written = lent;
    done->is_as_lent = is_as_lent(&out_rooms[way], done->written_len);
}

static void call(const void *asked, enum way way, struct outcome *done)
{
    const struct request *r = asked;
    const uint8_t *message = lend_or_null(&message_room, way, &r->message);
    const uint8_t *site = lend_or_null(&site_room, way, &r->site);
    if (way == INSIDE)
        site = message + (find(&r->message, &r->site) - r->message.first);
    done->written_len = 0;
    done->is_as_lent = 1;
    if (r->is_dhcid)
        call_dhcid(r, way, message, site, done);
    else
        done->answer = vichrelka_name(r->family, r->setting, message, length(&r->message), site, length(&r->site));
    done->is_as_lent = done->is_as_lent && is_as_lent(&message_room, 0) && is_as_lent(&site_room, 0);
}

static void print_name(uint64_t answer)
{
    static const char *const sources[] = {"message", "site", "source 2", "source 3"};
    printf("ok %s %" PRIu32 " %" PRIu32 "\n", sources[vichrelka_name_source(answer)], vichrelka_name_start(answer), vichrelka_name_len(answer));
}

static void print_dhcid(const struct outcome *done)
{
    size_t i;
    printf("ok %" PRIu32 " ", vichrelka_value(done->answer));
    for (i = 0; i < done->written_len; i++)
        printf("%02x", (unsigned)done->written[i]);
    printf("\n");
}

int answer_line(char *line)
{
    struct request r;
    struct outcome done;
    uint64_t family, setting, out_len = 0;
    r.is_dhcid = take_word(&line, "dhcid");
    if (!r.is_dhcid && !take_word(&line, "name"))
        return 0;
    if (!take_number(&line, UINT32_MAX, &family) || !take_number(&line, UINT32_MAX, &setting))
        return 0;
    if (!take_bytes(&line, &r.message) || !take_bytes(&line, &r.site))
        return 0;
    if ((r.is_dhcid && !take_number(&line, PTRDIFF_MAX, &out_len)) || !is_whole(line))
        return 0;
    r.family = (uint32_t)family;
    r.setting = (uint32_t)setting;
    r.out_len = (size_t)out_len;
    if (ask(call, differs, &r, &done)) {
        if (r.is_dhcid)
            print_dhcid(&done);
        else
            print_name(done.answer);
    }
    return 1;
}
