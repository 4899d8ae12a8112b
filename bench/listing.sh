#!/usr/bin/env bash
# The listing check and the load against the zone readers of Knot, BIND and ldns, called in process where they are installed (Debian: libknot-dev,
# bind9-dev, libldns-dev), best of 40 rounds of CPU time, as rows of the table of bench/run. The listings are those of bench/listing.py; each side has to
# read every record of them, or there is no figure.
set -euo pipefail
cd "$(dirname "$0")/.."
. bench/build.bash
archive gateway
python3 -B bench/listing.py "$out" >/dev/null
peer ZSCANNER '#include <libzscanner/scanner.h>' 'zs_deinit(0)' -lzscanner
peer BIND $'#define HAVE_STDATOMIC_H 1\n#include <dns/master.h>' 'dns_master_loadbuffer(0, 0, 0, 0, 0, 0, 0)' -ldns -lisc
peer LDNS '#include <ldns/ldns.h>' 'ldns_dname_new_frm_str(".")' -lldns
build listing
"$out/listing" "$out"
