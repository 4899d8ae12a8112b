#!/usr/bin/env bash
# The DHCID of a request, from the whole message: how many a second, and the ratio to a plain C SHA-256 (gcc -O2) of the same hashed bytes, which a
# DHCID cannot do without. Best of 60 rounds of CPU time. Each pass has to give the DHCID that RFC 4701 prints, or there is no figure.
set -euo pipefail
cd "$(dirname "$0")/.."
. bench/build.bash
archive gateway
build dhcid bench/sha256_plain.c
"$out/dhcid"
