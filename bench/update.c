/* The messages a second that the library writes, and the answers that it reads, beside the same in plain C and, where it is installed, in ldns, in one run:
 * see bench/update.sh.
 *
 * Each pass is over many clients, and every answer in it is checked. */
#include <stdbool.h>
#include <stdio.h>
#include <string.h>
#ifdef WITH_LDNS
#include <ldns/ldns.h>
#endif

#include "measure.h"
#include "names.h"
#include "update_plain.h"
#include "vichrelka.h"

enum { ROUNDS = 40, CLIENTS = 64, PASSES = 256, PASSES_LDNS = 4, PASSES_ANSWERS = 1024, HEADER_LEN = 12 };

enum message { ADD_FIRST, ADD_SECOND, REMOVE_FIRST, REMOVE_SECOND, MESSAGES };
static const char *const MESSAGE_NAMES[MESSAGES] = {"first add", "second add", "first remove", "second remove"};

struct client {
    uint16_t id;
    struct name name, zone;
    uint8_t dhcid[VICHRELKA_DHCID_LEN];
    uint32_t family;
    uint8_t address[16];
};

struct written {
    size_t len;
    uint8_t bytes[VICHRELKA_UPDATE_LIMIT];
};

/* Our messages and plain C's */

typedef uint64_t message_fn(uint16_t, const uint8_t *, size_t, const uint8_t *, size_t, const uint8_t *, size_t, uint32_t, const uint8_t *, size_t, uint8_t *,
                            size_t);
typedef uint64_t last_fn(uint16_t, const uint8_t *, size_t, const uint8_t *, size_t, const uint8_t *, size_t, uint8_t *, size_t);

static const struct calls {
    message_fn *with_address[REMOVE_SECOND];
    last_fn *last;
} OURS = {{vichrelka_update_add_first, vichrelka_update_add_second, vichrelka_update_remove_first}, vichrelka_update_remove_second},
  PLAINS = {{update_add_first_plain, update_add_second_plain, update_remove_first_plain}, update_remove_second_plain};

static inline void write_by(const struct calls *calls, enum message message, const struct client *c, struct written *w)
{
    uint64_t answer;
    if (message == REMOVE_SECOND)
        answer = calls->last(c->id, c->zone.bytes, c->zone.len, c->name.bytes, c->name.len, c->dhcid, sizeof c->dhcid, w->bytes, sizeof w->bytes);
    else
        answer = calls->with_address[message](c->id, c->zone.bytes, c->zone.len, c->name.bytes, c->name.len, c->dhcid, sizeof c->dhcid, c->family,
                                              c->address, address_size(c->family), w->bytes, sizeof w->bytes);
    w->len = vichrelka_value(answer);
}

static void write_ours(enum message message, const struct client *c, struct written *w) { write_by(&OURS, message, c, w); }
static void write_plain(enum message message, const struct client *c, struct written *w) { write_by(&PLAINS, message, c, w); }

/* ldns's */

#ifdef WITH_LDNS
enum { LIFETIME = 3600, RECORDS = 4 };

static ldns_rr *record(const struct client *c, ldns_rr_type type, ldns_rr_class class, uint32_t lifetime, bool has_data)
{
    ldns_rr *rr = ldns_rr_new();
    ldns_rr_set_owner(rr, ldns_rdf_new_frm_data(LDNS_RDF_TYPE_DNAME, c->name.len, c->name.bytes));
    ldns_rr_set_type(rr, type);
    ldns_rr_set_class(rr, class);
    ldns_rr_set_ttl(rr, lifetime);
    if (has_data && type == LDNS_RR_TYPE_DHCID)
        ldns_rr_push_rdf(rr, ldns_rdf_new_frm_data(LDNS_RDF_TYPE_B64, sizeof c->dhcid, c->dhcid));
    else if (has_data)
        ldns_rr_push_rdf(rr, ldns_rdf_new_frm_data(type == LDNS_RR_TYPE_A ? LDNS_RDF_TYPE_A : LDNS_RDF_TYPE_AAAA, address_size(c->family), c->address));
    return rr;
}

/* Which record a message has, in its order; the prerequisites are the first ones */
static const struct form {
    int prerequisites, records;
    struct {
        ldns_rr_type type; /* 0 is the address's */
        ldns_rr_class class;
        uint32_t lifetime;
        bool has_data;
    } of[RECORDS];
} FORMS[MESSAGES] = {
    {1, 3, {{LDNS_RR_TYPE_ANY, LDNS_RR_CLASS_NONE, 0, false}, {0, LDNS_RR_CLASS_IN, LIFETIME, true},
            {LDNS_RR_TYPE_DHCID, LDNS_RR_CLASS_IN, LIFETIME, true}}},
    {1, 3, {{LDNS_RR_TYPE_DHCID, LDNS_RR_CLASS_IN, 0, true}, {0, LDNS_RR_CLASS_ANY, 0, false}, {0, LDNS_RR_CLASS_IN, LIFETIME, true}}},
    {2, 3, {{LDNS_RR_TYPE_DHCID, LDNS_RR_CLASS_IN, 0, true}, {0, LDNS_RR_CLASS_IN, 0, true}, {0, LDNS_RR_CLASS_NONE, 0, true}}},
    {3, 4, {{LDNS_RR_TYPE_DHCID, LDNS_RR_CLASS_IN, 0, true}, {LDNS_RR_TYPE_A, LDNS_RR_CLASS_NONE, 0, false},
            {LDNS_RR_TYPE_AAAA, LDNS_RR_CLASS_NONE, 0, false}, {LDNS_RR_TYPE_DHCID, LDNS_RR_CLASS_NONE, 0, true}}},
};

static void write_ldns(enum message message, const struct client *c, struct written *w)
{
    const struct form *form = &FORMS[message];
    ldns_rr_list *prerequisites = ldns_rr_list_new(), *updates = ldns_rr_list_new();
    for (int i = 0; i < form->records; i++) {
        ldns_rr_type type = form->of[i].type != 0 ? form->of[i].type : c->family == 4 ? LDNS_RR_TYPE_A : LDNS_RR_TYPE_AAAA;
        ldns_rr_list_push_rr(i < form->prerequisites ? prerequisites : updates,
                             record(c, type, form->of[i].class, form->of[i].lifetime, form->of[i].has_data));
    }
    ldns_rdf *zone = ldns_rdf_new_frm_data(LDNS_RDF_TYPE_DNAME, c->zone.len, c->zone.bytes);
    ldns_pkt *packet = ldns_update_pkt_new(zone, LDNS_RR_CLASS_IN, prerequisites, updates, NULL);
    uint8_t *bytes = NULL;
    ldns_pkt_set_id(packet, c->id);
    ldns_pkt_set_rd(packet, false);
    w->len = 0;
    if (ldns_pkt2wire(&bytes, packet, &w->len) == LDNS_STATUS_OK && w->len <= sizeof w->bytes)
        memcpy(w->bytes, bytes, w->len);
    free(bytes);
    ldns_pkt_free(packet);
    ldns_rr_list_deep_free(prerequisites);
    ldns_rr_list_deep_free(updates);
}

static void append_record(struct written *w, const ldns_rr *rr, ldns_pkt_section section)
{
    uint8_t *bytes = NULL;
    size_t len = 0;
    if (ldns_rr2wire(&bytes, rr, section, &len) != LDNS_STATUS_OK || len > sizeof w->bytes - w->len)
        stop("ldns", "a record is not written");
    memcpy(w->bytes + w->len, bytes, len);
    w->len += len;
    free(bytes);
}

/* The message with its names expanded: each of its records written alone has no compression */
static void expand(struct written *w)
{
    static const ldns_pkt_section SECTIONS[] = {LDNS_SECTION_QUESTION, LDNS_SECTION_ANSWER, LDNS_SECTION_AUTHORITY};
    ldns_pkt *packet;
    if (ldns_wire2pkt(&packet, w->bytes, w->len) != LDNS_STATUS_OK)
        stop("ldns", "a message is not read");
    w->len = HEADER_LEN;
    for (int s = 0; s < 3; s++) {
        const ldns_rr_list *list = s == 0 ? ldns_pkt_question(packet) : s == 1 ? ldns_pkt_answer(packet) : ldns_pkt_authority(packet);
        for (size_t i = 0; i < ldns_rr_list_rr_count(list); i++)
            append_record(w, ldns_rr_list_rr(list, i), SECTIONS[s]);
    }
    ldns_pkt_free(packet);
}

static uint64_t answer_ldns(uint16_t id, const uint8_t *answer, size_t answer_len)
{
    ldns_pkt *packet;
    uint64_t said = refuse(VICHRELKA_REFUSED_NOT_THE_ANSWER);
    if (ldns_wire2pkt(&packet, answer, answer_len) != LDNS_STATUS_OK)
        return said;
    if (ldns_pkt_qr(packet) && ldns_pkt_get_opcode(packet) == LDNS_PACKET_UPDATE && ldns_pkt_id(packet) == id)
        said = accepted((uint32_t)ldns_pkt_get_rcode(packet));
    ldns_pkt_free(packet);
    return said;
}
#else
#define write_ldns NULL
#define answer_ldns NULL
static void expand(struct written *w) { (void)w; }
#endif

/* Contestants */

/* One that was not there when this was compiled has no functions. */
static const struct contestant {
    const char *name;
    void (*write)(enum message, const struct client *, struct written *);
    uint64_t (*answer)(uint16_t, const uint8_t *, size_t);
} contestants[] = {
    {"vichrelka", write_ours, vichrelka_update_answer},
    {"plain C", write_plain, update_answer_plain},
    {"ldns", write_ldns, answer_ldns},
};
enum { VICHRELKA, PLAIN, LDNS, CONTESTANTS };

/* Clients */

static void client_text(char *text, int i)
{
    (void)i;
    strcpy(text, "client.example.com.");
}

/* `outside` labels of a name are not its zone's */
static struct kind {
    const char *what;
    text_fn *write;
    int outside;
    uint32_t family;
    struct client clients[CLIENTS];
} kinds[] = {
    {.what = "client.example.com, A", .write = client_text, .outside = 1, .family = 4},
    {.what = "client.example.com, AAAA", .write = client_text, .outside = 1, .family = 6},
    {.what = "name of 255 bytes, zone of 63, AAAA", .write = long_different, .outside = 3, .family = 6},
    {.what = "name and zone of 255 bytes, AAAA", .write = long_different, .outside = 0, .family = 6},
};
enum { KINDS = sizeof kinds / sizeof kinds[0] };

static uint32_t chance_state = 1;
static uint8_t chance(void) { return (uint8_t)((chance_state = chance_state * 1664525 + 1013904223) >> 24); }

static struct client client_of(const struct kind *k, int i)
{
    struct client c = {.name = name_of(k->write, i), .dhcid = {0, 1, 1}, .family = k->family};
    const uint8_t *zone = c.name.bytes;
    for (int label = 0; label < k->outside; label++)
        zone += 1 + *zone;
    c.id = (uint16_t)(chance() << 8 | chance());
    c.zone.len = c.name.len - (size_t)(zone - c.name.bytes);
    memcpy(c.zone.bytes, zone, c.zone.len);
    for (size_t at = 3; at < sizeof c.dhcid; at++)
        c.dhcid[at] = chance();
    for (size_t at = 0; at < sizeof c.address; at++)
        c.address[at] = chance();
    return c;
}

/* Messages */

/* what one pass is given; `lens` are the lengths that are due */
struct turn {
    const struct kind *kind;
    const struct contestant *by;
    enum message message;
    size_t lens[CLIENTS];
};

static void message_pass(const void *given)
{
    const struct turn *t = given;
    static struct written w;
    for (int i = 0; i < CLIENTS; i++) {
        t->by->write(t->message, &t->kind->clients[i], &w);
        if (w.len != t->lens[i])
            stop(t->by->name, "another length than is due");
    }
}

/* Every message of a contestant has to be plain C's; its own lengths are noted. */
static struct turn compared_turn(const struct kind *k, enum message message, const struct contestant *by)
{
    struct turn t = {.kind = k, .by = by, .message = message};
    for (int i = 0; i < CLIENTS; i++) {
        struct written w, plain;
        by->write(message, &k->clients[i], &w);
        write_plain(message, &k->clients[i], &plain);
        t.lens[i] = w.len;
        if (by == &contestants[LDNS])
            expand(&w);
        if (w.len == 0 || w.len != plain.len || memcmp(w.bytes, plain.bytes, w.len) != 0)
            stop(by->name, "another message than plain C's");
    }
    return t;
}

static void measure_messages(const struct kind *k, enum message message)
{
    double best[CONTESTANTS] = {1e9, 1e9, contestants[LDNS].write ? 1e9 : 0};
    struct turn turns[CONTESTANTS];
    for (int c = 0; c < CONTESTANTS; c++)
        if (contestants[c].write)
            turns[c] = compared_turn(k, message, &contestants[c]);
    /* in turns, so that what else the machine does meets all of them */
    for (int round = 0; round < ROUNDS; round++)
        for (int c = 0; c < CONTESTANTS; c++)
            if (contestants[c].write)
                time_passes(message_pass, &turns[c], c == LDNS ? PASSES_LDNS : PASSES, &best[c]);
    char what[128];
    snprintf(what, sizeof what, "%s: %s", k->what, MESSAGE_NAMES[message]);
    for (int c = PLAIN; c < CONTESTANTS; c++)
        row(what, MILLIONS_A_SECOND, 0, best[VICHRELKA] / CLIENTS, contestants[c].name, best[c] / CLIENTS);
}

/* Answers */

/* A header, and the zone as a server repeats it. The codes are those that are values, by chance: one could be foreseen. */
struct answers {
    const struct contestant *by;
    uint64_t wants[CLIENTS];
    struct written bytes[CLIENTS];
};

static void answer_pass(const void *given)
{
    const struct answers *a = given;
    for (int i = 0; i < CLIENTS; i++)
        if (a->by->answer(kinds[0].clients[i].id, a->bytes[i].bytes, a->bytes[i].len) != a->wants[i])
            stop(a->by->name, "another answer than is due");
}

static void make_answers(struct answers *a)
{
    static const uint8_t CODES[] = {VICHRELKA_CODE_DONE, VICHRELKA_CODE_NAME_IN_USE, VICHRELKA_CODE_SET_STANDS, VICHRELKA_CODE_NO_SUCH_SET};
    for (int i = 0; i < CLIENTS; i++) {
        struct written *w = &a->bytes[i];
        uint8_t code = CODES[chance() % 4];
        write_plain(ADD_FIRST, &kinds[0].clients[i], w);
        w->len = HEADER_LEN + kinds[0].clients[i].zone.len + 4;
        w->bytes[2] |= 0x80;
        w->bytes[3] = code;
        memset(w->bytes + 6, 0, HEADER_LEN - 6);
        a->wants[i] = accepted(code);
    }
}

static void measure_answers(void)
{
    static struct answers answers;
    double best[CONTESTANTS] = {1e9, 1e9, contestants[LDNS].answer ? 1e9 : 0};
    make_answers(&answers);
    for (int round = 0; round < ROUNDS; round++)
        for (int c = 0; c < CONTESTANTS; c++)
            if (contestants[c].answer) {
                answers.by = &contestants[c];
                time_passes(answer_pass, &answers, c == LDNS ? PASSES_LDNS : PASSES_ANSWERS, &best[c]);
            }
    for (int c = PLAIN; c < CONTESTANTS; c++)
        row("a server's answer, read", MILLIONS_A_SECOND, 0, best[VICHRELKA] / CLIENTS, contestants[c].name, best[c] / CLIENTS);
}

int main(void)
{
    for (struct kind *k = kinds; k < kinds + KINDS; k++)
        for (int i = 0; i < CLIENTS; i++)
            k->clients[i] = client_of(k, i);
    for (struct kind *k = kinds; k < kinds + KINDS; k++)
        for (int message = 0; message < MESSAGES; message++)
            measure_messages(k, (enum message)message);
    measure_answers();
    return 0;
}
