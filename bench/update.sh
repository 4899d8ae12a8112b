#!/usr/bin/env bash
# The messages for a name server and the reading of its answer against the same calls in plain C (gcc -O2), and against ldns where it is installed (Debian:
# libldns-dev): millions a second and the ratio, best of 40 rounds of CPU time. All have to write the same message, or there is no figure; ldns compresses
# the names, so its messages are compared expanded.
set -euo pipefail
cd "$(dirname "$0")/.."
. bench/build.bash
archive gateway
peer LDNS '#include <ldns/ldns.h>' 'ldns_update_pkt_new(0, 1, 0, 0, 0)' -lldns
build update bench/update_plain.c bench/table_plain.c
"$out/update"
