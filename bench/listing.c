/* How fast a listing is checked and loaded, beside the zone readers of Knot, BIND and ldns, in one run: see bench/listing.sh.
 *
 * They do not do quite the same work. The check also folds the owners' letters and judges what a DHCID says, and gives no record away; the load makes a
 * table of the records and looks for repeats. libzscanner and BIND's reader hand each record, or each set of records, to a callback, which only counts here;
 * ldns' makes a list of records, and freeing it is in the time. */
#define _GNU_SOURCE
#include <stdio.h>
#include <string.h>

#ifdef WITH_ZSCANNER
#include <libzscanner/scanner.h>
#endif
#ifdef WITH_BIND
#define HAVE_STDATOMIC_H 1 /* what BIND's own configuration would say */
#include <dns/callbacks.h>
#include <dns/master.h>
#include <dns/name.h>
#include <dns/rdataset.h>
#include <isc/buffer.h>
#include <isc/mem.h>
#endif
#ifdef WITH_LDNS
#include <ldns/ldns.h>
#endif

#include "measure.h"
#include "vichrelka.h"

/* A CPU learns the branches of a text that it reads over and over, and nobody reads one so: a pass goes over many texts of a kind. */
enum { ROUNDS = 40, TEXTS = 32 };

struct text {
    size_t len;
    /* one byte more than the limit, so that a file that is too long is seen */
    uint8_t bytes[VICHRELKA_LISTING_LIMIT + 1];
};

static struct listing {
    const char *file, *what;
    int is_loaded; /* or checked */
    unsigned records;
    size_t total;
    struct text texts[TEXTS];
} listings[] = {
    {.file = "long", .what = "listing check, 180 records, 255-byte owners", .records = 180},
    {.file = "short", .what = "listing check, 759 short records", .records = 759},
    {.file = "sixty", .what = "load, 60 names with three records each", .is_loaded = 1, .records = 180},
};
enum { LISTINGS = sizeof listings / sizeof listings[0] };

static void read_files(const char *folder, struct listing *l)
{
    for (int i = 0; i < TEXTS; i++) {
        struct text *t = &l->texts[i];
        char path[4096];
        snprintf(path, sizeof path, "%s/%s-%d.txt", folder, l->file, i);
        FILE *f = fopen(path, "rb");
        if (!f)
            stop(path, "cannot be opened");
        t->len = fread(t->bytes, 1, sizeof t->bytes, f);
        fclose(f);
        if (t->len > VICHRELKA_LISTING_LIMIT)
            stop(path, "too long");
        l->total += t->len;
    }
}

/* A contestant reads a text once: the number of its records, or FAILED */
typedef unsigned reader_fn(const struct text *text);
enum { FAILED = -1 };

static unsigned vichrelka_check(const struct text *t)
{
    uint64_t answer = vichrelka_listing_check(t->bytes, t->len);
    return vichrelka_refusal(answer) == 0 ? vichrelka_value(answer) : (unsigned)FAILED;
}

/* A table says how many records it has in its slots' flags. */
static unsigned vichrelka_load(const struct text *t)
{
    static uint8_t table[VICHRELKA_TABLE_LEN];
    unsigned records = 0;
    if (vichrelka_refusal(vichrelka_table_load(table, sizeof table, t->bytes, t->len)) != 0)
        return (unsigned)FAILED;
    for (int i = 0; i < VICHRELKA_TABLE_NAMES; i++)
        records += (unsigned)__builtin_popcount(table[VICHRELKA_SLOT_LEN * i + VICHRELKA_SLOT_FLAGS]);
    return records;
}

/* What a reader needs for all texts is set up once, as a program that reads many would do, and is not in the time: zs_init, for one, clears some 200 KB. */

#ifdef WITH_ZSCANNER
static zs_scanner_t scanner;
static unsigned scanned, scan_errors;

static void scanned_record(zs_scanner_t *s)
{
    (void)s;
    scanned++;
}

static void scan_error(zs_scanner_t *s)
{
    (void)s;
    scan_errors++;
}

static void zscanner_begin(void)
{
    /* class IN, and any TTL: the records say neither, or not always */
    if (zs_init(&scanner, ".", 1, 3600) != 0 || zs_set_processing(&scanner, scanned_record, scan_error, NULL) != 0)
        stop("libzscanner", "no set-up");
}

static unsigned zscanner_read(const struct text *t)
{
    scanned = scan_errors = 0;
    if (zs_set_input_string(&scanner, (const char *)t->bytes, t->len) != 0 || zs_parse_all(&scanner) != 0)
        return (unsigned)FAILED;
    return scan_errors == 0 ? scanned : (unsigned)FAILED;
}
#else
#define zscanner_begin NULL
#define zscanner_read NULL
#endif

#ifdef WITH_BIND
static isc_mem_t *memory;

static isc_result_t bind_records(void *arg, const dns_name_t *owner, dns_rdataset_t *set)
{
    (void)owner;
    *(unsigned *)arg += dns_rdataset_count(set);
    return ISC_R_SUCCESS;
}

static void bind_begin(void)
{
    isc_mem_create(&memory);
}

static unsigned bind_read(const struct text *t)
{
    unsigned records = 0;
    dns_rdatacallbacks_t callbacks;
    isc_buffer_t text;
    dns_rdatacallbacks_init_stdio(&callbacks);
    callbacks.add = bind_records;
    callbacks.add_private = &records;
    isc_buffer_constinit(&text, t->bytes, t->len);
    isc_buffer_add(&text, t->len);
    isc_result_t result = dns_master_loadbuffer(&text, (dns_name_t *)dns_rootname, (dns_name_t *)dns_rootname, dns_rdataclass_in,
                                                DNS_MASTER_NOTTL, &callbacks, memory);
    return result == ISC_R_SUCCESS ? records : (unsigned)FAILED;
}
#else
#define bind_begin NULL
#define bind_read NULL
#endif

#ifdef WITH_LDNS
static ldns_rdf *root;

static void ldns_begin(void)
{
    root = ldns_dname_new_frm_str(".");
}

static unsigned ldns_read(const struct text *t)
{
    ldns_zone *zone = NULL;
    FILE *text = fmemopen((void *)(uintptr_t)t->bytes, t->len, "r");
    if (!text || ldns_zone_new_frm_fp(&zone, text, root, 3600, LDNS_RR_CLASS_IN) != LDNS_STATUS_OK)
        return (unsigned)FAILED;
    unsigned records = (unsigned)ldns_zone_rr_count(zone);
    ldns_zone_deep_free(zone);
    fclose(text);
    return records;
}
#else
#define ldns_begin NULL
#define ldns_read NULL
#endif

/* A peer that was not there when this was compiled has no functions. */
static const struct peer {
    const char *name;
    void (*begin)(void);
    reader_fn *read;
} peers[] = {{"libzscanner", zscanner_begin, zscanner_read}, {"BIND, dns_master", bind_begin, bind_read}, {"ldns", ldns_begin, ldns_read}};
enum { PEERS = sizeof peers / sizeof peers[0] };

/* Time */

struct turn {
    const struct listing *listing;
    const char *who;
    reader_fn *read;
};

static void pass(const void *given)
{
    const struct turn *turn = given;
    for (int i = 0; i < TEXTS; i++)
        if (turn->read(&turn->listing->texts[i]) != turn->listing->records)
            stop(turn->who, "does not read every record");
}

static void measure(const struct listing *l)
{
    double ours = 1e9, theirs[PEERS];
    for (int i = 0; i < PEERS; i++)
        theirs[i] = peers[i].read ? 1e9 : 0;
    /* in turns, so that what else the machine does meets all */
    for (int round = 0; round < ROUNDS; round++) {
        time_passes(pass, &(struct turn){l, "vichrelka", l->is_loaded ? vichrelka_load : vichrelka_check}, 1, &ours);
        for (int i = 0; i < PEERS; i++)
            if (peers[i].read)
                time_passes(pass, &(struct turn){l, peers[i].name, peers[i].read}, 1, &theirs[i]);
    }
    for (int i = 0; i < PEERS; i++)
        row(l->what, l->is_loaded ? MICROSECONDS : MEGABYTES_A_SECOND, l->total / TEXTS, ours / TEXTS, peers[i].name, theirs[i] / TEXTS);
}

int main(int argc, char **argv)
{
    for (int i = 0; i < PEERS; i++)
        if (peers[i].begin)
            peers[i].begin();
    for (int i = 0; i < LISTINGS; i++) {
        read_files(argc > 1 ? argv[1] : "target/bench", &listings[i]);
        measure(&listings[i]);
    }
    return 0;
}
